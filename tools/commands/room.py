"""usage: sheet room [--json] FILE..

Tells how much room the sheets of compiled Kotlin classes take, without reading them into areas: bytes of sheet and text, how many records of
each kind stand on the sheet, and the bytes of text of each list (its declarations and all they own) and of the head, a class to a line. After several
classes follow the longest sheet and the longest text, which are the areas that serve all of them, and the sums. A text of more than 65,534 bytes fits no area: its length is told, and `sheet read` refuses the class with 11. FILE is as for
`sheet read`.

  --json      an object to a class, on a line (docs/JSON.md); without longest and sums

Exit status: 0 the room of all was told; 1 a class was refused or is damaged, or a file named by itself has no Kotlin metadata; 2 usage; 4 a file
can't be read, the output can't be written, or the library can't be built."""
import collections

import output, runs, sheet_json, sheets
from commands.read import InJson, InText

SUMMARY = 'how much room the sheets of classes take, before they are read'
OPTIONS = ['--json']
FILES = True


def counted(number, record):
    """So many records of a kind, in words."""
    if record == 'aliases':
        return f"{number} count{'s' * (number != 1)} of aliases"
    return f"{number} {record if number == 1 else sheets.PLURALS.get(record, record + 's')}"


def room_text(sheet, text, records, texts):
    """Both lengths, the records of each kind, and the text of each list."""
    kinds = ', '.join(counted(n, sheets.RECORDS[kind][0]) for kind, n in sorted(records.items()))
    return f"sheet {sheet} bytes, text {text} bytes; {kinds}; text of {', '.join(f'{name} {texts[name]}' for name in sheets.LISTS)}"


class Sums:
    """Over many classes: how many, the longest sheet and text among those that areas can hold, and all lengths, records and texts in sum."""

    def __init__(self):
        self.classes, self.too_long, self.sheet, self.text = 0, 0, 0, 0
        self.longest = {'sheet': (0, ''), 'text': (0, '')}
        self.records, self.texts = collections.Counter(), collections.Counter()

    def take(self, one):
        room, path = one.room, output.printable(one.found.path())
        self.classes += 1
        self.sheet, self.text = self.sheet + room.sheet, self.text + room.text
        self.records.update(room.records)
        self.texts.update(room.texts)
        if not one.fits():
            self.too_long += 1
            return
        for area, length in (('sheet', room.sheet), ('text', room.text)):
            self.longest[area] = max(self.longest[area], (length, path), key=lambda told: told[0])

    def lines(self):
        areas = ', '.join(f'{area} {length} bytes ({path})' for area, (length, path) in self.longest.items() if path)
        if areas:
            yield f'longest: {areas}'
        if self.too_long:
            yield f'{self.too_long} with a text that fits no area'
        yield f'all {self.classes}: {room_text(self.sheet, self.text, self.records, self.texts)}'


class RoomInText(InText):
    """A class to a line, under its path unless it is alone."""

    def __init__(self):
        self.sums = Sums()

    def read(self, one):
        self.sums.take(one)
        heading = '' if self.alone else f'{output.printable(one.found.path())}: '
        too_long = '' if one.fits() else f' [the text fits no area: more than {sheets.TEXT_LIMIT} bytes]'
        room = one.room
        output.write(f'{heading}{room_text(room.sheet, room.text, room.records, room.texts)}{too_long}\n')

    def end(self):
        if not self.alone and self.sums.classes:
            output.write(''.join(line + '\n' for line in self.sums.lines()))


class RoomInJson(InJson):
    def read(self, one):
        output.write(sheet_json.line(sheet_json.measured_json(one)))

    def end(self):
        pass


def run(options, files, command):
    form = RoomInJson() if '--json' in options else RoomInText()
    this = runs.RoomRun(form, command)
    this.over(files)
    form.end()
    return this.status()
