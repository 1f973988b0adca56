"""usage: sheet read [--json | --records | --line] FILE..

Prints the call sheets of compiled Kotlin classes. FILE is a class file, a jar or other zip file, a folder (all .class and .jar files in it and
below), or one class of a jar as app.jar!/till/Sale.class. Jars inside a jar aren't opened.

Without an option a sheet is in words, a declaration to a line: the declaration, its flags as a number, its recorded method (`signature`) and
its default descriptor (`default`), or the field, getter and setter of a property. Beside a target stands what the class file says of it:
[not in the class], [shared with ..], [may be the method of ..], [no target] where the sheet tells none (docs/MANUAL.md, "How to link").

  --json      an object to a class, on a line (docs/JSON.md)
  --records   a record of the sheet to a line, under its owner
  --line      number, detail, sheet and text in hex, as the program sheet_reader prints them

Exit status: 0 all were read; 1 one was refused or is damaged, or a file named by itself has no Kotlin metadata; 2 usage; 4 a file can't be
read, the output can't be written, or the library can't be built."""
import output, payloads, runs, sheet_json, sheets
from sheet_text import record_lines, sheet_lines

SUMMARY = 'the sheets of classes, in words or as JSON'
OPTIONS = ['--json', '--records', '--line']
FILES = True


class InText:
    """Sheets to standard output, each under its path unless it is alone; what was not read to standard error."""
    alone, first = False, True

    def __init__(self, lines):
        self.lines = lines

    def read(self, one):
        heading = '' if self.alone else '\n' * (not self.first) + f'{output.printable(one.found.path())}:\n'
        self.first = False
        output.write(heading + ''.join(line + '\n' for line in self.lines(one)))

    def refused(self, found, _, refusal):
        place = refusal.place and payloads.text(refusal.place)
        output.say(f'{found.path()}: {sheets.refusal_text(refusal.number, refusal.detail, place)}')

    def not_a_class(self, found, why):
        output.say(f'{found.path()}: not a class file that can be read: {why}')


class InLines(InText):
    """The program's lines, refusals too."""

    def read(self, one):
        output.write(sheets.answer_line(0, 0, one.answer.sheet, one.answer.text) + '\n')

    def refused(self, _, __, refusal):
        output.write(sheets.answer_line(refusal.number, refusal.detail, b'', b'') + '\n')


class InJson:
    """An object to a class, to standard output."""
    alone = False

    def read(self, one):
        output.write(sheet_json.line(sheet_json.read_json(one)))

    def refused(self, found, name, refusal):
        output.write(sheet_json.line(sheet_json.refused_json(found, name, refusal)))

    def not_a_class(self, found, why):
        output.write(sheet_json.line(sheet_json.not_a_class_json(found, why)))


def form(options):
    if '--json' in options:
        return InJson()
    if '--line' in options:
        return InLines(None)
    if '--records' in options:
        return InText(lambda one: record_lines(one.answer.sheet, one.answer.text))
    return InText(lambda one: sheet_lines(one.head, one.names, one.marks()))


def run(options, files, command):
    this = runs.Run(form(options), command)
    this.over(files)
    return this.status()
