#!/usr/bin/env python3
"""The wrong bodies of crates/*/wrong-bodies: the prover must refuse each at a goal of its own function.

usage: tools/wrong_bodies.py SINCE [CRATE..]     right after `rt ci`, over the libraries that it has proved; SINCE is a file that was written before it began
       tools/wrong_bodies.py --check [CRATE..]   in a copy of the repository, where `rt check` builds the libraries

A file is an edit, in the form of those of must-fail (edits.py). It changes a function's body, or a constant that only that function names. What any other
function has to show stays as it is: its proof goes by its own code and by the contracts of what it calls. So the edits of a crate are made at once and tried
in one check, of these functions alone, and each is refused on its own, at a goal of the function that it names. Nothing may be refused that no edit changes.
Edits of one function are tried one after the other, over what the first check of the crate has proved.

Where the prover met a limit of its own it gave no verdict, so that such an edit is not refused. A `return` that an edit adds is a goal that the code as it is
doesn't have. In a function with a proof file a right one would be refused there too, for want of an answer. So such an edit must be refused at a goal that the
file answers, with the edit's lines.

`rt ci` tries each file of must-fail by itself: it loads all libraries for each, proves the crate once more for them, and tells only what is refused first. That
is for edits of definitions, since such an edit may fall on any function. For edits of bodies it took half of the gate's time."""
import concurrent.futures
import os
import pathlib
import re
import shutil
import subprocess
import sys
import tempfile

import edits
import proving
from wrong_answers import AT_GOAL, BY_HAND, REFUSED, ROOT, UNMET, copy_to, follow, functions_of, refused_at, restore, verdict

ERROR = r'(?:\./)?(?:src|specs|proofs)/\S+:\d+:\d+: error'
PARTS = ('src', 'specs', 'proofs')


def crates_with_bodies():
    return sorted({path.parent.parent.name for path in edits.bodies()})


def only(functions):
    return [word for name in functions for word in ('--only', name)]


def said_by(words, folder):
    return subprocess.run(words, cwd=folder, stdin=subprocess.DEVNULL, stdout=subprocess.PIPE, stderr=subprocess.STDOUT, text=True, errors='replace').stdout


def over_libraries(crate, folder, kept, functions):
    """Checks functions of a folder with the crate's files over the libraries in the checkout; `kept` holds what earlier checks of the crate have proved."""
    return said_by([*proving.over(crate, 'check'), '--jobs', '1', '--incremental', kept, *only(functions)], folder)


def apply(group, folder):
    for _, part, _ in group:
        for file, old, new in part.pairs:
            source = folder / file
            text = source.read_text()
            if text.count(old) != 1:
                raise SystemExit(f'wrong_bodies: {part.crate}/{part.label}: its old text does not stand once in {file} beside the others')
            source.write_text(text.replace(old, new))


def elsewhere(log, functions):
    """What was refused that is no goal of some functions: the lines that say so."""
    for line in log.splitlines():
        unmet, refused = re.match(UNMET, line), re.match(REFUSED, line)
        if unmet and not any(f.has(unmet['file'], int(unmet['line'])) for f in functions):
            yield line
        if not unmet and re.match(ERROR, line) and not (refused and refused['place'] in {f.place for f in functions}):
            yield line


def adds_return(part):
    """Whether an edit's new code has more returns than its old code."""
    code = [pair for pair in part.pairs if pair[0].startswith('src/')]
    old, new = (sum(len(re.findall(r'\breturn\b', pair[at])) for pair in code) for at in (1, 2))
    return old < new


def answered(function, part):
    """The goals that a function's proof answers, with the edit's lines; none if it has no file."""
    texts = [pathlib.Path(path).read_text() for path in follow.files(ROOT / 'crates' / part.crate, function.place)]
    lines = [new for file, _, new in part.pairs if file.startswith('proofs/')] if texts else []
    return set(re.findall(r'^pub (\S+) :', '\n'.join([*texts, *lines]), re.M))


def only_added(function, part, log):
    """The goals of a function at which an edit that adds a return is refused, if none of them has an answer where others do."""
    goals, _ = refused_at(part.crate, function, log)
    known = answered(function, part) if adds_return(part) else set()
    return goals if known and not known & set(goals) else []


def misses(crate, group, log):
    """Of the edits of one check, those that are not refused as they must be, with why."""
    known = functions_of(crate)
    for _, part, _ in group:
        said = [verdict(crate, known[name], log) for name in part.named]
        added = [only_added(known[name], part, log) for name in part.named]
        if not any(kind in (AT_GOAL, BY_HAND) for kind, _ in said):
            yield part.label, '; '.join(f'{name}: {words}' for name, (_, words) in zip(part.named, said))
        elif all(goals or kind not in (AT_GOAL, BY_HAND) for goals, (kind, _) in zip(added, said)):
            yield part.label, f'refused only at a goal that it adds, without an answer: {", ".join(goal for goals in added for goal in goals)}'
    changed = [known[name] for _, part, _ in group for name in {*part.named, *part.changed(known)}]
    for line in elsewhere(log, changed):
        yield ', '.join(part.label for _, part, _ in group), f'refused where none of them changes anything: {line[:200]}'


def try_crate(crate, run):
    """Tries a crate's edits; `run` checks functions of a folder of its files. Answers how many there are, in how many checks, and what is wrong."""
    parts = [(path, edits.parts_of(path)[0][0]) for path in edits.bodies([crate])]
    groups, found = edits.apart(parts, functions_of(crate)), []
    with tempfile.TemporaryDirectory(prefix='wrong-bodies-') as work:
        for number, group in enumerate(groups):
            folder = pathlib.Path(work) / str(number)
            for name in PARTS:
                if (ROOT / 'crates' / crate / name).is_dir():
                    shutil.copytree(ROOT / 'crates' / crate / name, folder / name)
            apply(group, folder)
            named = [name for _, part, _ in group for name in part.named]
            found += misses(crate, group, run(crate, folder, f'{work}/kept', named))
    return len(parts), len(groups), found


def told(crate, tried):
    parts, checks, found = tried
    for label, why in found:
        print(f'! {crate}/{label}: {why}', flush=True)
    print(f'{crate}: {parts} wrong bodies in {checks} check{"s" * (checks > 1)}, {len(found)} not refused as they must be', flush=True)
    return parts, checks, len(found)


def by_rt_check(copy):
    """Checks a folder's files as those of the crate in a copy of the repository."""
    def run(crate, folder, _, functions):
        for name in PARTS:
            if (folder / name).is_dir():
                shutil.copytree(folder / name, copy / 'crates' / crate / name, dirs_exist_ok=True)
        log = said_by(['rt', 'check', *only(functions)], copy / 'crates' / crate)
        restore(crate, copy / 'crates' / crate / 'src')
        return log
    return run


def all_after_ci(crates):
    """Several crates at once, each check on one processor; those with the most lines first."""
    size = {crate: sum(path.stat().st_size for path in (ROOT / 'crates' / crate).glob('*/**/*.*t')) for crate in crates}
    with concurrent.futures.ThreadPoolExecutor(len(os.sched_getaffinity(0))) as pool:
        order = sorted(crates, key=lambda crate: -size[crate])
        for crate, tried in zip(order, [pool.submit(try_crate, crate, over_libraries) for crate in order]):
            yield told(crate, tried.result())


def all_in_copy(crates):
    with tempfile.TemporaryDirectory() as folder:
        copy_to(pathlib.Path(folder))
        for crate in crates:
            yield told(crate, try_crate(crate, by_rt_check(pathlib.Path(folder))))


def main(words):
    if not words or words[0].startswith('-') and words[0] != '--check':
        sys.exit(__doc__)
    crates = words[1:] or crates_with_bodies()
    if lacking := [crate for crate in crates if crate not in crates_with_bodies()]:
        sys.exit(f'wrong_bodies: {", ".join(lacking)}: no wrong bodies')
    if words[0] == '--check':
        counts = [*all_in_copy(crates)]
    elif proving.are_of_run(os.stat(words[0]).st_mtime_ns, [name for crate in crates for name in proving.below(crate)]):
        counts = [*all_after_ci(crates)]
    else:
        print('wrong_bodies: the libraries in out/ are not those that rt ci has proved now, so rt check builds them', flush=True)
        counts = [*all_in_copy(crates)]
    parts, checks, wrong = map(sum, zip(*counts))
    print(f'wrong bodies: {parts} tried in {checks} check{"s" * (checks > 1)}, {wrong} not refused as they must be')
    return wrong > 0


if __name__ == '__main__':
    sys.exit(main(sys.argv[1:]))
