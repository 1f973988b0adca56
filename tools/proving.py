#!/usr/bin/env python3
"""The proved build, with what it has done so far: `rt lib` in crates/sheet_calls proves the crates, those below first, and writes the archive of what
is proved to crates/sheet_calls/out. It is copied to target/staticlib.

usage: tools/proving.py SINCE     the same right after `rt ci`; SINCE is a file that was written before `rt ci` began

`rt ci` proves each crate from nothing and leaves the libraries in out/ that it has proved so. `rt lib` doesn't take these, it would prove them all once more.
So where each library is of that run, crates/sheet_calls alone is proved again, over them, and the archive written by the kit's compiler as `rt lib` calls
it. Where one isn't, as in a checkout in which crates were checked before, since `rt ci` puts back what `rt check` left, or where that fails, the archive is
built by `rt lib`."""
import os, queue, re, shutil, subprocess, sys, tempfile, threading, time

import library_build
from library_build import ARCHIVE, PROVED, ROOT, BuildFailed, duration, reached, uses

CRATE = 'sheet_calls'
FOLDER = os.path.join(ROOT, 'crates', CRATE)
OF = re.compile(r'^rt: chose --jobs \d+ for (\w+)|^crate (\w+): ')
DONE = re.compile(r'^logic=proved ')
FAILED = re.compile(r'^fn \S+: (not proved|no proof)|^rt: the library \S+ did not build|^\S+: error')


def lines_of(words, folder=ROOT):
    """The lines that a command prints, each as it comes, None once a second while there is none. BuildFailed if it fails."""
    try:
        process = subprocess.Popen(words, cwd=folder, stdin=subprocess.DEVNULL, stdout=subprocess.PIPE, stderr=subprocess.STDOUT)
    except OSError as why:
        raise BuildFailed(f'{words[0]}: {why.strerror}') from None
    lines = queue.Queue()

    def pump():
        for line in process.stdout:
            lines.put(line.decode('utf-8', 'replace').rstrip('\n'))
        lines.put(process)
    threading.Thread(target=pump, daemon=True).start()
    last, failed = [], []
    while True:
        try:
            line = lines.get(timeout=1)
        except queue.Empty:
            yield None
            continue
        if line is process:
            break
        last = [*last[-9:], line]
        if FAILED.match(line):
            failed.append(line)
        yield line
    if process.wait():
        raise BuildFailed(f"{' '.join(map(os.path.basename, words[:2]))} failed; `rt check` in the crate's folder shows all of it:\n" + '\n'.join(failed[:10] or last))


def prove(say, progress):
    """Proves and builds. `say` gets a line for each crate, `progress` what is shown meanwhile."""
    crates, began, done, crate = reached(), time.monotonic(), [], None

    def so_far():
        return f'{len(done)} of {len(crates)} crates proved, {duration(time.monotonic() - began)} so far'
    for line in lines_of(['rt', 'lib'], FOLDER):
        if found := OF.match(line or ''):
            crate = found[1] or found[2]
        if DONE.match(line or '') and crate in crates and crate not in done:
            done.append(crate)
            say(f'{so_far()}: {crate}')
        progress.show(f'sheet: {so_far()}')
    progress.clear()
    keep(os.path.join(FOLDER, 'out', ARCHIVE))


def keep(archive):
    """Copies the archive to target/staticlib, at once and with its time, which `proved_archive` compares with the sources'."""
    try:
        os.makedirs(PROVED, exist_ok=True)
        with tempfile.TemporaryDirectory(dir=PROVED) as work:
            shutil.copy2(archive, os.path.join(work, ARCHIVE))
            os.replace(os.path.join(work, ARCHIVE), os.path.join(PROVED, ARCHIVE))
    except OSError as why:
        raise BuildFailed(str(why)) from None


# ---- over libraries that are there

def rlib(name):
    return os.path.join(ROOT, 'crates', name, 'out', 'rlib', f'{name}.rlib')


def below(crate):
    return [name for name in reached(crate) if name != crate]


def are_of_run(since, names):
    """Whether each library was put into its out/ after a time: `rt ci` makes its folder anew, also where it takes what an earlier run proved."""
    try:
        return all(os.stat(rlib(name)).st_mtime_ns >= since for name in names)
    except OSError:
        return False


def over(crate, verb):
    """The words that have the kit check or build a library over those in the crates' out/, as rt does. One that is no crate here is the kit's."""
    home, all_uses = library_build.kit(), uses()
    found = {name: rlib(name) if name in all_uses else f'{home}/rlibs/{name}.rlib' for name in all_uses[crate] if name != 'staticlib'}
    words = [os.path.join(home, 'bin', 'rattle'), verb, '--crate-name', crate, 'src/lib.rt', '--extern', f'std={home}/rlibs/std.rlib', '-L', f'dependency={home}/rlibs']
    words += [word for name, library in found.items() for word in ('--extern', f'{name}={library}')]
    words += [word for name in below(crate) for word in ('-L', f'dependency={os.path.dirname(rlib(name))}')]
    return [*words, '--antt-project', f'{home}/rattle/logic/antt-project.json', '--logic-built', f'{home}/logic_built', '--links', f'{crate}=']


def build_over(archive, toolchain):
    """Proves crates/sheet_calls over the libraries in the crates' out/ and writes its archive with a toolchain, as `rt lib` does."""
    words = [*over(CRATE, 'build'), '--jobs', str(min(os.cpu_count() or 1, 4)), '--crate-type', 'staticlib', '--toolchain', toolchain, '--backend', 'llvm', '-o', archive]
    if not any(DONE.match(line or '') for line in [*lines_of(words, FOLDER)]):
        raise BuildFailed(f'{CRATE}: no verdict')


def after_ci(since):
    if are_of_run(since, below(CRATE)):
        try:
            with tempfile.TemporaryDirectory() as work:
                build_over(os.path.join(work, ARCHIVE), os.path.join(library_build.kit(), 'toolchain'))
                keep(os.path.join(work, ARCHIVE))
            return
        except BuildFailed as why:
            print(f'proving: {why}\nproving: so rt lib builds the archive', flush=True)
    else:
        print('proving: the libraries in out/ are not those that rt ci has proved now, so rt lib builds the archive', flush=True)
    for line in lines_of(['rt', 'lib'], FOLDER):
        if DONE.match(line or ''):
            print(line, flush=True)
    keep(os.path.join(FOLDER, 'out', ARCHIVE))


def main(words):
    if len(words) != 1 or words[0].startswith('-'):
        sys.exit(__doc__)
    try:
        after_ci(os.stat(words[0]).st_mtime_ns)
    except BuildFailed as why:
        sys.exit(f'proving: {why}')
    print(f'{os.path.join(PROVED, ARCHIVE)}: proved')


if __name__ == '__main__':
    main(sys.argv[1:])
