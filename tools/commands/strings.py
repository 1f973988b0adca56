"""usage: sheet strings [--json] FILE..

Lists the strings of d2 of compiled Kotlin classes, each with its index. `fallen to` is what the reading of the class looks up; all others may be
blanked before the class is lent, all at once, as long as their number stays (docs/MANUAL.md, "Strings that may be blanked"). What doesn't print
in a string is written by its number, as \\u{1b}. FILE is as for `sheet read`.

  --json      an object to a class, on a line (docs/JSON.md)

Of a class that is refused nothing is listed. A class whose text fits no area is listed, though `sheet read` refuses it with 11.

Exit status: 0 the strings of all were listed; 1 a class was refused or is damaged, or a file named by itself has no Kotlin metadata; 2 usage; 4 a
file can't be read, the output can't be written, or the library can't be built."""
import output, runs, sheet_json
from commands.read import InJson, InText
from sheet_text import shown

SUMMARY = 'which strings of d2 are looked up, and which may be blanked'
OPTIONS = ['--json']
FILES = True

WORDS = {True: 'fallen to', False: 'may be blanked'}


def counted(strings, used):
    """How many there are, and how many of them are fallen to."""
    return f"{strings} string{'s' * (strings != 1)}: {used} fallen to, {strings - used} may be blanked"


def string_lines(strings):
    """First the numbers; then a string to a line, in the order of d2."""
    yield counted(len(strings), sum(used for _, used in strings))
    width = len(str(len(strings) - 1))
    for index, (units, used) in enumerate(strings):
        text = shown(sheet_json.text_json(units)).replace('"', '\\"')
        yield f'  {index:>{width}}  {WORDS[used]:<14}  "{text}"'


class StringsInText(InText):
    """The strings of a class under its path, unless it is alone; at the end the numbers of all."""

    def __init__(self):
        super().__init__(lambda one: string_lines(one.strings))
        self.classes, self.strings, self.used = 0, 0, 0

    def read(self, one):
        super().read(one)
        self.classes += 1
        self.strings += len(one.strings)
        self.used += sum(used for _, used in one.strings)

    def end(self):
        if not self.alone and self.classes:
            output.write(f'\nall {self.classes}: {counted(self.strings, self.used)}\n')


class StringsInJson(InJson):
    def read(self, one):
        output.write(sheet_json.line(sheet_json.marked_json(one)))

    def end(self):
        pass


def run(options, files, command):
    form = StringsInJson() if '--json' in options else StringsInText()
    this = runs.StringsRun(form, command)
    this.over(files)
    form.end()
    return this.status()
