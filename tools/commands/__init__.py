"""The subcommands of ./sheet, a module each: its docstring is its help, OPTIONS the options that it takes (one of
them, beside those in BESIDE, if it has any), `run(options, files, command)` does
it and gives the exit status. A new one is a module here and its name in NAMES."""

NAMES = ['read', 'check', 'room', 'strings', 'convert', 'build']
