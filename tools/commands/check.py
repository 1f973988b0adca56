"""usage: sheet check [--json] FILE..

Looks up in the class files what the sheets link to, and prints only what can't be linked as it stands, a target to a line: a method or field
that is [not in the class], one that is [shared with ..] another declaration of the sheet, one that [may be the method of ..] another
declaration. Functions of which the sheet tells no method are counted in the summary. FILE is as for `sheet read`.

  --json      an object to a class of which something was found, on a line (docs/JSON.md)

Exit status: 0 nothing was found; 3 something was; 1 a class was refused or is damaged, or a file named by itself has no Kotlin metadata;
2 usage; 4 a file can't be read, the output can't be written, or the library can't be built. Of several the first of 4, 1, 3."""
import collections

import output, runs, sheet_json, targets
from commands.read import InJson, InText
from sheet_text import shown

SUMMARY = 'only the targets that the class files do not have, or that several declarations come to'
OPTIONS = ['--json']
FILES = True


def findings(one):
    """The targets of which the class file says something."""
    return [j for j in one.judgements if j.target.by is not None and targets.words(j, one.head)]


class Tally:
    """What was found, counted: for (whether of a property, by) how many targets there are, aren't in the class, are shared, may be another's."""

    def __init__(self):
        self.found, self.counts = 0, collections.defaultdict(lambda: [0, 0, 0, 0])

    def take(self, one):
        for j in one.judgements:
            count = self.counts[j.target.part != 'method', j.target.by]
            for at, holds in enumerate([True, not j.there, bool(j.shared), bool(j.others)]):
                count[at] += holds
        found = findings(one)
        self.found += len(found)
        return found

    def lines(self):
        """The counts in words."""
        for (of_property, by), (there, missing, shared, others) in sorted(self.counts.items(), key=str):
            what = 'fields, getters and setters' if of_property else 'functions and constructors'
            if by is None:
                yield f'{what} without a target: {there}'
            else:
                yield f'{what} by {by}: {there}, of which {missing} not in the class, {shared} shared, {others} perhaps of another'


class FindingsInText(InText):
    def __init__(self, tally):
        self.tally = tally

    def read(self, one):
        for j in self.tally.take(one):
            t = j.target
            declared = targets.declared(one.head['of'][t.declaration])
            between = ' ' if t.part == 'field' else ''
            how = 'default' if t.by == 'default' else 'signature' if t.part == 'method' else t.part
            output.write(f"{output.printable(one.found.path())}: {declared}  {how} {shown(t.name)}{between}{shown(t.descriptor)}"
                         f" [{'; '.join(targets.words(j, one.head))}]\n")


class FindingsInJson(InJson):
    def __init__(self, tally):
        self.tally = tally

    def read(self, one):
        found = self.tally.take(one)
        if found:
            output.write(sheet_json.line(sheet_json.checked_json(one, found)))


def run(options, files, command):
    tally = Tally()
    this = runs.Run(FindingsInJson(tally) if '--json' in options else FindingsInText(tally), command)
    this.over(files)
    for line in tally.lines():
        output.say(line)
    return this.status() or (runs.FOUND if tally.found else runs.OK)
