"""One run over the classes of a command line: each class is taken from its file, read by the library, and handed to the command; what can't be
read names itself and doesn't end the run. At the end stand a summary and the exit status."""
import collections, time

import class_input, classes, library, payloads, sheets, targets
from output import Progress, say
from sheet_text import ClassNames

# exit statuses; of several the first of FAILED, REFUSED, FOUND
OK = 0        # every class that carries Kotlin metadata was read
REFUSED = 1   # one was refused or is damaged, or a file named by itself has no Kotlin metadata
USAGE = 2     # the command line
FOUND = 3     # `check` found something
FAILED = 4    # a file can't be read, the output can't be written, or the library can't be built


# a class that was refused: number, detail, and where it broke, a payloads.Place or None
Refusal = collections.namedtuple('Refusal', 'number detail place')


class Read:
    """A class that was read: where it was found, what its file holds, the reader's answer, the sheet's head with its declarations."""

    def __init__(self, found, class_file, metadata, answer):
        self.found, self.metadata, self.answer = found, metadata, answer
        self.names = ClassNames(class_file.name(), metadata.parts, metadata.facade)
        self.head = sheets.Walk(answer.sheet, answer.text).sheet()
        self.judgements = targets.judge(targets.targets(self.head), targets.class_members(class_file))

    def marks(self):
        """What is said of the targets, by the declaration's place and the part of it."""
        said = collections.defaultdict(dict)
        for j in self.judgements:
            said[j.target.declaration][j.target.part] = targets.words(j, self.head)
        return said


class Measured:
    """A class whose room was told: where it was found, its JVM name, a library.Room."""

    def __init__(self, found, name, room):
        self.found, self.name, self.room = found, name, room

    def fits(self):
        """Whether an area can hold its text."""
        return self.room.text <= sheets.TEXT_LIMIT


class Marked:
    """A class of which was told which strings its reading falls to: where it was found, its JVM name, and of each string of d2 its units and whether it
    is fallen to."""

    def __init__(self, found, name, metadata, used):
        self.found, self.name = found, name
        self.strings = [(metadata.d2[start:end], told) for start, end, told in zip([0, *metadata.ends], metadata.ends, used)]


class Run:
    """`show` has a method for each thing that may come of a class: read(what `result` gives), refused(found, name, Refusal),
    not_a_class(found, why). What is asked of the library is its sheet; a subclass may ask something else."""
    DONE = 'read'  # a word for the summary

    def __init__(self, show, command):
        self.show, self.command, self.library = show, command, None
        self.read, self.without, self.damaged, self.failures = 0, 0, 0, 0
        self.named_without = 0
        self.refusals = collections.Counter()

    def over(self, paths):
        """Goes over all classes. Nothing is built before the first class that carries metadata is there to be read."""
        began = time.monotonic()
        found = classes.in_paths(paths, self.failed)
        self.show.alone = len(paths) == len(found) == 1 and found[0].named
        for at, one in enumerate(found):
            Progress.show(f'{at} of {len(found)} classes, {one.file}')
            self.take(one)
        Progress.clear()
        if not self.show.alone:
            say(f'{self.summary()} ({time.monotonic() - began:.1f} s)')

    def take(self, found):
        try:
            class_file = class_input.ClassFile(found.data())
            name, metadata = class_file.name(), class_file.metadata()
            answer = self.answer(metadata)
            if answer.number == 0:
                one = self.result(found, class_file, metadata, answer)
        except classes.FileFailed as why:
            return self.failed(why)
        except class_input.NoMetadata:
            return self.no_metadata(found)
        except (class_input.Damaged, classes.TooLong) as why:
            self.damaged += 1
            return self.show.not_a_class(found, str(why) or 'it is longer than 64 MiB')
        if answer.number:
            self.refusals[answer.number] += 1
            place = payloads.place(metadata, answer.number, answer.detail)
            return self.show.refused(found, name, Refusal(answer.number, answer.detail, place))
        self.read += 1
        self.show.read(one)

    def answer(self, metadata):
        if self.library is None:
            self.library = library.opened(say, self.command)
        return self.asked(metadata)

    def asked(self, metadata):
        return self.library.read(metadata)

    def result(self, found, class_file, metadata, answer):
        """What is shown of a class that wasn't refused."""
        return Read(found, class_file, metadata, answer)

    def failed(self, why):
        self.failures += 1
        say(why)

    def no_metadata(self, found):
        self.without += 1
        if found.named:
            self.named_without += 1
            say(f'{found.path()}: no annotation kotlin.Metadata: it was not compiled from Kotlin, or the annotation was stripped')

    def summary(self):
        refused = f'{sum(self.refusals.values())} refused'
        if self.refusals:
            refused += ' (' + ', '.join(f'{n} by {number}, {sheets.REFUSAL_NAMES[number]}' for number, n in sorted(self.refusals.items())) + ')'
        failed = [f'{self.failures} not readable as files'] if self.failures else []
        return ', '.join([f'{self.read} {self.DONE}', refused, f'{self.without} without Kotlin metadata', f'{self.damaged} not a class', *failed])

    def status(self):
        if self.failures:
            return FAILED
        return REFUSED if self.refusals or self.damaged or self.named_without else OK


class RoomRun(Run):
    """A run that asks for the room of classes; what it shows is a Measured."""
    DONE = 'measured'

    def asked(self, metadata):
        return self.library.room(metadata)

    def result(self, found, class_file, _, room):
        return Measured(found, class_file.name(), room)


class StringsRun(Run):
    """A run that asks which strings the readings of classes fall to; what it shows is a Marked."""
    DONE = 'looked at'

    def asked(self, metadata):
        return self.library.strings(metadata)

    def result(self, found, class_file, metadata, answer):
        return Marked(found, class_file.name(), metadata, answer.used)
