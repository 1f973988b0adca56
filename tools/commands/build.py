"""usage: sheet build [--unproved]

Proves the reader crate by crate and writes the static library target/staticlib/libsheet_calls.a, which `sheet read` then uses. It shows how
many crates are proved and the time so far. What is proved already isn't proved again.

  --unproved  builds the same source without proof, in seconds, to target/unproved/libsheet_calls.a: for trying, not for use. It has the
              symbol sheet_reader_unproved, by which a build can tell it.

Exit status: 0 built; 2 usage; 4 not proved, or the build failed."""
import os, time

import library_build, output, proving, runs

SUMMARY = 'proves the reader and writes the static library; or builds it without proof'
OPTIONS = ['--unproved']
FILES = False


def run(options, _, __):
    began = time.monotonic()
    if '--unproved' in options:
        library_build.build_unproved()
        archive, how = os.path.join(library_build.UNPROVED, library_build.ARCHIVE), 'built WITHOUT PROOF, for trying'
    else:
        proving.prove(output.say, output.Progress)
        archive, how = os.path.join(library_build.PROVED, library_build.ARCHIVE), 'proved'
    output.write(f'{archive}: {how} ({library_build.duration(time.monotonic() - began)})\n')
    return runs.OK
