"""Results to standard output, messages to standard error. Output that can't be written is a failure; a message that can't be is lost."""
import os, sys, time


class OutputFailed(Exception):
    """Standard output is closed, or full."""


def write(text):
    """Text to standard output, in UTF-8 whatever the locale says."""
    try:
        if sys.stdout is None:
            raise OutputFailed('it is closed')
        Progress.clear()
        sys.stdout.buffer.write(text.encode('utf-8', 'surrogateescape'))
        if Progress.shown:
            sys.stdout.buffer.flush()  # before the progress line comes again, perhaps on the same terminal
    except OSError as why:
        raise OutputFailed(why.strerror or str(why)) from None


def finish():
    """All that was written has arrived, or OutputFailed."""
    try:
        if sys.stdout is not None:
            sys.stdout.buffer.flush()
    except OSError as why:
        raise OutputFailed(why.strerror or str(why)) from None


def give_up():
    """After OutputFailed: what is still held back goes nowhere, so that Python doesn't try again at its end."""
    if sys.stdout is not None:
        os.dup2(os.open(os.devnull, os.O_WRONLY), sys.stdout.fileno())


def to_stderr(text):
    try:
        if sys.stderr is not None:
            sys.stderr.buffer.write(text.encode('utf-8', 'surrogateescape'))
            sys.stderr.buffer.flush()
    except OSError:
        pass


def printable(text):
    """A file's name as it may stand in a line: what doesn't print is written by its number."""
    return ''.join(c if c.isprintable() or '\udc80' <= c <= '\udcff' else f'\\u{{{ord(c):x}}}' for c in text)


def say(text):
    """A message: a line on standard error, or several."""
    Progress.clear()
    to_stderr('sheet: ' + '\n'.join(printable(line) for line in str(text).split('\n')) + '\n')


class Progress:
    """A line on standard error that is written over, if that is a terminal: some steps a second."""
    EVERY = 0.1
    last, on_line, shown = 0.0, False, False

    @classmethod
    def show(cls, text):
        now = time.monotonic()
        if now - cls.last >= cls.EVERY and sys.stderr is not None and sys.stderr.isatty():
            width = 79
            to_stderr('\r\x1b[K' + (text if len(text) <= width else text[:width - 2] + '..'))
            cls.last, cls.on_line, cls.shown = now, True, True

    @classmethod
    def clear(cls):
        """Before anything else is written to the terminal."""
        if cls.on_line:
            to_stderr('\r\x1b[K')
            cls.on_line = False
