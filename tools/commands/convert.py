"""usage: sheet convert [--old] [--json] FILE..

Shows what a conversion of d1 gives, and changes no file. Classes of the compilers from before the marker have seven bits in each unit of d1: the
old form; all later ones begin with a unit 0, the marker, and have a byte in each unit. `sheet read` takes both. docs/MANUAL.md, "Old libraries",
tells when to convert. FILE is as for `sheet read`.

A line to a class: the form that its d1 has, how many units, the first of them in hex, and the same after the conversion; or that there is nothing
to convert.

  --old       the other way: from the form with the marker to the old one
  --json      an object to a class, with all units of the converted d1 (docs/JSON.md)

Exit status: 0 all were converted or had nothing to convert; 1 one was refused or is damaged, or a file named by itself has no Kotlin metadata;
2 usage; 4 a file can't be read, the output can't be written, or the library can't be built."""
import collections

import library, output, runs, sheet_json, sheets
from commands.read import InJson, InText

SUMMARY = 'what a conversion between the two forms of d1 gives'
OPTIONS, BESIDE = ['--json', '--old'], ['--old']
FILES = True

WRONG_FORM = 15
FIRST = 8  # units that are shown

# a class whose d1 was converted: where it was found, its name, the units before and after, and what both forms are called
Conversion = collections.namedtuple('Conversion', 'found name before after form other')
# one with nothing to convert
Left = collections.namedtuple('Left', 'found name why')
# an answer of this command's own, in place of the library's
Nothing = collections.namedtuple('Nothing', 'number why')


def form_of(units):
    return sheets.MARKER_FORM if units[0] == 0 else sheets.OLD_FORM


def units_text(form, units):
    shown = ' '.join(f'{unit:02x}' for unit in units[:FIRST])
    return f"{form}, {len(units):,} {'unit' if len(units) == 1 else 'units'}: {shown}{' ..' if len(units) > FIRST else ''}"


class ConvertedInText(InText):
    def __init__(self):
        pass

    def read(self, one):
        if isinstance(one, Left):
            said = f'{one.why}; nothing to convert'
        else:
            said = f'{units_text(one.form, one.before)}; {units_text(one.other, one.after)}'
        output.write(f'{output.printable(one.found.path())}: {said}\n')


class ConvertedInJson(InJson):
    def read(self, one):
        output.write(sheet_json.line(sheet_json.left_json(one) if isinstance(one, Left) else sheet_json.converted_json(one)))


class Conversions(runs.Run):
    """What it shows is a Conversion or a Left. That d1 has the wanted form already is no refusal here."""

    def __init__(self, show, command, way):
        super().__init__(show, command)
        self.way, self.left = way, 0

    @property
    def DONE(self):
        return f'looked at ({self.read - self.left} converted, {self.left} with nothing to convert)'

    def asked(self, metadata):
        if metadata.k == 4:
            return Nothing(0, 'd1 has the names of the parts of a multi-file class')
        if metadata.k == 3 and not metadata.d1:
            return Nothing(0, 'd1 is empty, as a synthetic class may have it')
        answer = self.library.convert(self.way, metadata.d1)
        return Nothing(0, units_text(form_of(metadata.d1), metadata.d1)) if answer.number == WRONG_FORM else answer

    def result(self, found, class_file, metadata, answer):
        if isinstance(answer, Nothing):
            self.left += 1
            return Left(found, class_file.name(), answer.why)
        return Conversion(found, class_file.name(), metadata.d1, answer.units, form_of(metadata.d1), other_form(self.way))


def other_form(way):
    return sheets.MARKER_FORM if way is library.OLD_TO_NEW else sheets.OLD_FORM


def run(options, files, command):
    way = library.NEW_TO_OLD if '--old' in options else library.OLD_TO_NEW
    this = Conversions(ConvertedInJson() if '--json' in options else ConvertedInText(), command, way)
    this.over(files)
    return this.status()
