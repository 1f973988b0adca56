"""The classes in files, folders and jars.

A file named by itself is a class or a jar by its first bytes. In a folder, and in the folders below it, files that end in .class and .jar are
taken; in a jar the entries that end in .class. FILE.jar!/ENTRY names one entry."""
import lzma, os, stat, struct, zipfile, zlib

CLASS, LIMIT = b'\xca\xfe\xba\xbe', 1 << 26  # no class file of a compiler is near this many bytes

# what zipfile and its decompressors raise on damaged archives
ZIP_FAULTS = (zipfile.BadZipFile, zlib.error, lzma.LZMAError, EOFError, OSError, RuntimeError, ValueError, OverflowError, KeyError, IndexError,
              struct.error, MemoryError)


class FileFailed(Exception):
    """A file, folder or jar that can't be read."""


class TooLong(Exception):
    """Longer than a class file is."""


class Found:
    """A class file by itself (entry None) or in a jar."""

    def __init__(self, file, entry=None, named=False):
        self.file, self.entry = file, entry
        self.named = named  # by itself, not with its folder or jar

    def path(self):
        return self.file if self.entry is None else f'{self.file}!/{self.entry}'

    def data(self):
        """Its bytes, or FileFailed, or TooLong."""
        if self.entry is None:
            return file_bytes(self.file)
        jar = Jars.opened(self.file)
        try:
            if jar.getinfo(self.entry).file_size > LIMIT:
                raise TooLong()
            return jar.read(self.entry)
        except ZIP_FAULTS as why:
            raise FileFailed(f'{self.path()}: {words(why)}') from None


def words(why):
    """An exception in words."""
    if isinstance(why, OSError) and why.strerror:
        return why.strerror
    return str(why) or type(why).__name__


def file_bytes(path):
    try:
        with open(path, 'rb') as f:
            data = f.read(LIMIT + 1)
    except (OSError, ValueError, MemoryError) as why:
        raise FileFailed(f'{path}: {words(why)}') from None
    if len(data) > LIMIT:
        raise TooLong()
    return data


class Jars:
    """The jar that was opened last: a folder may hold more jars than may be open at once."""
    path, jar = None, None

    @classmethod
    def opened(cls, path):
        if cls.path != path:
            if cls.jar:
                cls.jar.close()
            cls.path, cls.jar = None, None
            try:
                cls.jar = zipfile.ZipFile(path)
            except ZIP_FAULTS as why:
                raise FileFailed(f'{path}: not a jar that can be read: {words(why)}') from None
            cls.path = path
        return cls.jar


def in_jar(path):
    return [Found(path, name) for name in Jars.opened(path).namelist() if name.endswith('.class')]


def one_entry(path, entry):
    if entry not in Jars.opened(path).namelist():
        raise FileFailed(f'{path}!/{entry}: the jar has no such entry')
    return [Found(path, entry, named=True)]


def in_folder(path, failed):
    """What is below a folder, in the order of names. What can't be read is told to `failed`, and the rest is taken."""
    found = []
    walk = os.walk(path, onerror=lambda why: failed(FileFailed(f'{why.filename}: {words(why)}')))
    for folder, folders, files in walk:
        folders.sort()
        for name in sorted(files):
            inner = os.path.join(folder, name)
            if not os.path.isfile(inner) and not os.path.islink(inner):
                continue  # a pipe or a device
            if name.endswith('.class'):
                found.append(Found(inner))
            elif name.endswith('.jar'):
                try:
                    found += in_jar(inner)
                except FileFailed as why:
                    failed(why)
    return found


def is_jar(path):
    """Whether a regular file is an archive. What begins as a class file is none, whatever follows."""
    with open(path, 'rb') as f:
        if f.read(4) == CLASS:
            return False
    try:
        return zipfile.is_zipfile(path)
    except ZIP_FAULTS:
        return False


def in_path(path, failed):
    """The classes that a word of the command line names."""
    try:
        mode = os.stat(path).st_mode
    except (OSError, ValueError) as why:
        jar, mark, entry = path.rpartition('!/')
        if mark and os.path.isfile(jar):
            return one_entry(jar, entry)
        raise FileFailed(f'{path}: {words(why)}') from None
    if stat.S_ISDIR(mode):
        return in_folder(path, failed)
    try:
        return in_jar(path) if stat.S_ISREG(mode) and is_jar(path) else [Found(path, named=True)]
    except OSError as why:
        raise FileFailed(f'{path}: {words(why)}') from None


def in_paths(paths, failed):
    """The classes that all of them name, in their order."""
    found = []
    for path in paths:
        try:
            found += in_path(path, failed)
        except FileFailed as why:
            failed(why)
    return found
