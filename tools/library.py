"""The reader itself, the room, the strings that a reading falls to and the conversions of d1: the functions of the library (include/sheet_reader.h), called in this process."""
import array, collections, ctypes

import library_build
from sheets import LISTS, RECORDS, TEXT_LIMIT

SHEET_LONGEST = 413695  # areas of this size and of TEXT_LIMIT are always long enough
STRING_LIMIT = 4096  # a class with more strings is refused, so that an area of so many bytes is always long enough for what is told of them
# of a conversion: its function, and how many units it gives at most
OLD_TO_NEW, NEW_TO_OLD = ('sheet_old_to_new', 28673), ('sheet_new_to_old', 37448)

Answer = collections.namedtuple('Answer', 'number detail sheet text types')
# of a class before it is read: lengths of sheet and text, types, records by kind, and the text of each list
Room = collections.namedtuple('Room', 'number detail sheet text types records texts')
FIRST_RECORDS = 5  # the place of the records of kind 1
FIRST_TEXT = FIRST_RECORDS + len(RECORDS)  # the place of the first list's text
# of the strings of a class: whether the reading falls to each
Strings = collections.namedtuple('Strings', 'number detail used')
Converted = collections.namedtuple('Converted', 'number detail units')


def lent(typecode, numbers):
    """Numbers in memory, with their count. There is always an element: the pointer of an empty slice must be one too."""
    return array.array(typecode, numbers or [0]), len(numbers)


def typed(function, parameters):
    """A C function that gives nothing back."""
    function.restype, function.argtypes = None, parameters
    return function


class Library:
    def __init__(self, path):
        pointer, size, number = ctypes.c_void_p, ctypes.c_size_t, ctypes.c_int32
        try:
            library = ctypes.CDLL(path)
            self.sheet_read = typed(library.sheet_read, [number] * 4 + [pointer, size] * 5 + [pointer])
            self.sheet_room = typed(library.sheet_room, [number] * 4 + [pointer, size] * 3 + [pointer])
            self.sheet_strings = typed(library.sheet_strings, [number] * 4 + [pointer, size] * 4 + [pointer])
            self.conversions = {way: typed(library[way[0]], [pointer, size] * 2 + [pointer]) for way in (OLD_TO_NEW, NEW_TO_OLD)}
        except (OSError, AttributeError) as why:
            raise library_build.BuildFailed(f'{path} is no library of the reader: {why}') from None
        self.sheet, self.text = ctypes.create_string_buffer(SHEET_LONGEST), ctypes.create_string_buffer(TEXT_LIMIT)

    def call(self, function, m, areas, count):
        """Calls a function with a class_input.Metadata and areas, each with its size, and gives the numbers of its answer."""
        answer, slices = (ctypes.c_uint64 * count)(), [lent('H', m.d1), lent('H', m.d2), lent('I', m.ends)]
        places = [place for numbers, size in slices for place in (numbers.buffer_info()[0], size)]
        places += [place for area, size in areas for place in (ctypes.addressof(area), size)]
        function(m.k, *m.version, *places, ctypes.addressof(answer))
        return list(answer)

    def read(self, m):
        """The answer for a class_input.Metadata."""
        areas = [(self.sheet, SHEET_LONGEST), (self.text, TEXT_LIMIT)]
        number, detail, sheet, text, types = self.call(self.sheet_read, m, areas, 5)
        return Answer(number, detail, ctypes.string_at(self.sheet, sheet), ctypes.string_at(self.text, text), types)

    def room(self, m):
        """The room for a class_input.Metadata."""
        told = self.call(self.sheet_room, m, [], FIRST_TEXT + len(LISTS))
        return Room(*told[:FIRST_RECORDS], dict(enumerate(told[FIRST_RECORDS:FIRST_TEXT], 1)), dict(zip(LISTS, told[FIRST_TEXT:])))

    def strings(self, m):
        """Which strings of d2 the reading of a class_input.Metadata falls to."""
        used = ctypes.create_string_buffer(STRING_LIMIT)
        number, detail, count = self.call(self.sheet_strings, m, [(used, STRING_LIMIT)], 3)
        told = [byte == 1 for byte in used.raw[:0 if number else len(m.ends)]]
        assert sum(told) == count
        return Strings(number, detail, told)

    def convert(self, way, units):
        """The units of the other form; `way` is OLD_TO_NEW or NEW_TO_OLD."""
        d1, count = lent('H', units)
        area, answer = (ctypes.c_uint16 * way[1])(), (ctypes.c_uint64 * 3)()
        self.conversions[way](d1.buffer_info()[0], count, ctypes.addressof(area), way[1], ctypes.addressof(answer))
        number, detail, length = answer
        return Converted(number, detail, area[:length])


def opened(say, command):
    """The proved library if it is there and current, else the one without proof, which is built where it has to be; `say` tells so."""
    archive = library_build.proved_archive()
    if archive:
        return Library(library_build.shared_of(archive))
    if library_build.unproved_is_current():
        say(f'the reader is built WITHOUT PROOF; `{command} build` proves it')
    else:
        say(f'building the reader WITHOUT PROOF, in seconds; `{command} build` proves it')
        library_build.build_unproved()
    return Library(library_build.unproved_shared())
