#!/usr/bin/env python3
"""Tries the wrong answers of tools/wrong_answers.tsv: the prover must refuse each at what its function's contract asks.

usage: tools/wrong_answers.py [--list] [NAME..]     NAME is a crate, or a module or function of it: messages, messages::reader, messages::find
                                                    no name: all; --list: only tests that the edits fit the files and, without a NAME, that each public
                                                    function has two and each wrong answer that docs/TRACE.md names of a function is there

A line of the table is one edit: crate, file, function, old text, new text, what is wrong, with tabs between. The old text stands once in the function;
where it or the new one goes over several lines, ⏎ stands for a line's end.
The edits of a crate are tried in a copy of the repository by `rt check`, several at once, but never in two functions of which one leads to the other,
since a caller is proved only above callees that are proved. Told for each: the goals that are not met. A proof by hand (Proof.antt) has no goals; it follows
the code step by step, so that its refusal tells less and is counted apart. The status is 1 if an edit is proved, doesn't reach the prover, or is refused
for another reason than a goal. Where an edit changes what goals and steps are named after, as the number in a test, the names in the proof are first
brought along (proofs/follow.py)."""
import pathlib
import re
import shutil
import subprocess
import sys
import tempfile

ROOT = pathlib.Path(__file__).resolve().parent.parent
sys.dont_write_bytecode = True
sys.path.insert(0, str(ROOT / 'tools' / 'proofs'))
import follow  # noqa: E402 (it stands in another folder)

TABLE = ROOT / 'tools' / 'wrong_answers.tsv'
TRACE = ROOT / 'docs' / 'TRACE.md'
AT_GOAL, BY_HAND, WRONG = 'refused at a goal', 'refused in a proof by hand', 'not refused so'
MISFIT = 'its proof no longer fits'
FUNCTION = re.compile(r'^( *)(?:pub(?:\(crate\))? )?(?:extern "C" )?fn (\w+)', re.M)
# an `impl`'s type, or its trait and its type; or a trait
HEADER = re.compile(r"^(?:pub(?:\(crate\))? )?(impl|trait)(?:<[^>]*>)? ([\w:<>'&\[\]]+)(?: for ([\w:<>'&\[\]]+))?", re.M)
# what the check says of a goal: where it stands in the code, or in the file that answers it
UNMET = r'note: src/(?P<file>\S+\.rt):(?P<line>\d+):\d+: it is not proved that '
REFUSED = r'(?:\./)?proofs/(?P<place>\S+)/(?:Answers|Proof)\.antt:\d+:\d+: error: `'
GONE = re.compile('is not in scope|has no field|has no `')  # a proof that names what isn't there any more
# what is said of a search where no file has the answer, as of an answer; and the lines that go on about either
SEARCH = r'note: what antt said of a `search` in the proof that rattle made: src/(?P<file>\S+\.rt):(?P<line>\d+):\d+: error: `'
SAID = r'(?P<name>[^`]*)`: (?P<words>.*(?:\n  .*)*)'
# a limit of the prover's own, in the words that rt knows; and one of a tactic's call. It gives no verdict: a right body could meet it too
LIMIT = re.compile(r'antt ran out of (?:stack|the (?:steps|memory) that the check of one declaration may (?:take|use))|(?:outgrew the memory limit|stopped at the step limit) \(|\n  `\w+` broke off')
LIMITED = 'refused only by a limit of the prover, which gave no verdict'


class Edit:
    def __init__(self, line):
        self.crate, self.file, self.function, old, new, self.words = line.split('\t')
        self.old, self.new = (text.replace('⏎', '\n') for text in (old, new))

    def is_in(self, name):
        return f'{self.crate}::{self.function}::'.startswith(name + '::')


class Function:
    """A function of a crate: where its text stands, its lines, the names that it calls, and the folder of its proof below `proofs`."""

    def __init__(self, path, file, start, end, text):
        self.path, self.file, self.start, self.end = path, file, start, end
        self.is_public = re.match(r' *pub (?:extern "C" )?fn ', text[start:]) is not None
        attributes = re.search(r'(?:^ *#\[[^\n]*\]\n)*\Z', text[:start], re.M)
        self.first, self.last = text.count('\n', 0, attributes.start()) + 1, text.count('\n', 0, end) + 2
        self.calls = set(re.findall(r'\b(\w+)\(', FUNCTION.sub('', text[start:end], count=1)))
        # functions that call each other have one proof in common, +NAME
        cycle = re.search(r'#\[cycle\((\w+)\)\]', attributes[0])
        *above, name = path.split('::')
        self.place = '/'.join([*above, f'+{cycle[1]}' if cycle else name])

    def has(self, file, line):
        return self.file == file and self.first <= line <= self.last

    @property
    def name(self):
        return self.path.split('::')[-1]


def spelled(name):
    """A type as the prover spells it in a function's path."""
    if name.startswith('&'):
        return 'Ref' + spelled(name[1:])
    if name.startswith('['):
        of = spelled(name[1:-1])
        return 'Slice' + of[0].upper() + of[1:]
    return name.split('<')[0]


def functions_of(crate):
    """The functions of a crate by their paths, as the prover prints them: module, name; of an `impl` its type's module, the type, name."""
    found, texts, homes = {}, {}, {}
    for file in sorted((ROOT / 'crates' / crate / 'src').glob('*.rt')):
        module = [] if file.stem in ('lib', 'main') else [file.stem]
        texts[file] = module, file.read_text()
        homes.update((name, module) for name in re.findall(r'^(?:pub(?:\(crate\))? )?(?:struct|enum) (\w+)', texts[file][1], re.M))
    for file, (module, text) in texts.items():
        for match in FUNCTION.finditer(text):
            start, indent = match.start(), match.group(1)
            header = HEADER.findall(text[:start])[-1:] if indent else []
            if header and header[0][0] == 'trait':  # what its methods promise; they have no code
                continue
            end = text.index(f'\n{indent}}}\n', start)
            # the type, and of a trait's `impl` the trait after it, as TFromU, TFromU8 and RefSliceU8FromU
            owner = [(of or first, re.sub(r'\W', '', re.sub(r'<\w', lambda begin: begin[0].upper(), first)) if of else '') for _, first, of in header]
            home = next((homes[name.split('<')[0]] for name, _ in owner if name.split('<')[0] in homes), module)
            names = [spelled(name) + trait for name, trait in owner]
            path = '::'.join(home + names + [match.group(2)])
            found[path] = Function(path, file.name, start, end, text)
    return found


def functions_of_all():
    return {folder.parent.name: functions_of(folder.parent.name) for folder in sorted((ROOT / 'crates').glob('*/src'))}


def reached(functions):
    """For each function those that it leads to, by names: a name that several functions have stands for all of them."""
    by_name = {}
    for function in functions.values():
        by_name.setdefault(function.name, set()).add(function.path)
    step = {path: set().union(*(by_name.get(name, set()) for name in function.calls)) for path, function in functions.items()}
    leads = {}
    for path in step:
        seen, left = set(), [path]
        while left:
            for other in step[left.pop()] - seen:
                seen.add(other)
                left.append(other)
        leads[path] = seen
    return leads


def batches(edits, leads):
    """Edits that can be tried at once: none in a function that leads to another's."""
    made = []
    for edit in edits:
        a = edit.function
        for batch in made:
            if all(a != b and a not in leads[b] and b not in leads[a] for b in (other.function for other in batch)):
                batch.append(edit)
                break
        else:
            made.append([edit])
    return made


def misfit(edit, functions):
    """Why an edit can't be made, or nothing."""
    function = functions.get(edit.function)
    if function is None or function.file != edit.file:
        return 'no such function in this file'
    text = (ROOT / 'crates' / edit.crate / 'src' / edit.file).read_text()[function.start:function.end]
    count = text.count(edit.old)
    if count != 1:
        return f'its old text stands {count} times in the function'
    return None if edit.old != edit.new else 'it changes nothing'


def named(text):
    """The wrong answers that TRACE's tables of functions name: crate, the functions of a row, what is wrong."""
    crate = ''
    for line in text.partition('\n## Public functions\n')[2].splitlines():
        head = re.match(r'### (\w+)$', line)
        crate = head[1] if head else crate
        cells = [cell.strip() for cell in line.split(' | ')]
        if line.startswith('| `') and len(cells) > 3 and cells[3] != '-':
            conversion = re.search(r'`from` of `(\w+)`, of an? `(\w+)`', cells[0])
            paths = [f'{conversion[1]}From{conversion[2]}::from'] if conversion else re.findall(r'`([\w:]+)`', cells[0])
            yield from ((crate, paths, words.strip()) for words in cells[3].split(';'))


# functions that begin a walk, and what gives the next of it
WALKS = {'fields_from': 'FieldsIterator::next', 'bodies_from': 'BodiesIterator::next'}


def missing(edits, functions):
    """The wrong answers that TRACE names and the table lacks of one of the functions of a row, and public functions that it has fewer than two of. What a walk gives
    next is wrong in its `next`, and TRACE names it at the function that begins the walk."""
    there = {(edit.crate, edit.function, edit.words) for edit in edits}
    planted = {}
    for edit in edits:
        planted.setdefault((edit.crate, edit.function), set()).add((edit.old, edit.new))
    for crate, paths, words in named(TRACE.read_text()):
        if not any((crate, path, words) in there for path in (*paths, *(WALKS[path] for path in paths if path in WALKS))):
            yield f'{crate} {", ".join(paths)}: {words}: docs/TRACE.md names it, and no line has it'
    for crate in functions:
        few = (path for path, function in functions[crate].items() if function.is_public and len(planted.get((crate, path), ())) < 2)
        yield from (f'{crate} {path}: it is public, and has fewer than two lines' for path in few)


def restore(crate, sources):
    for file in sources.glob('*.rt'):
        shutil.copy(ROOT / 'crates' / crate / 'src' / file.name, file)
    for file in sources.parent.glob('proofs/**/*.antt'):
        shutil.copy(ROOT / 'crates' / crate / file.relative_to(sources.parent), file)


def bring_along(crate, places, before, folder):
    """Gives the proofs in some places of a copy's crate the names of its changed code."""
    moved = follow.renamings(before, follow.names(folder))
    for place in places:
        for path in follow.files(folder, place) if moved.get(place) else ():
            path = pathlib.Path(path)
            path.write_text(follow.followed(path.read_text(), moved[place]))


def apply(batch, functions, sources):
    """Writes the files of one batch, from the last function of a file to the first, so that places stay."""
    restore(batch[0].crate, sources)
    for edit in sorted(batch, key=lambda edit: -functions[edit.function].start):
        function, file = functions[edit.function], sources / edit.file
        text = file.read_text()
        part = text[function.start:function.end].replace(edit.old, edit.new)
        file.write_text(text[:function.start] + part + text[function.end:])


def is_by_hand(crate, function):
    return (ROOT / 'crates' / crate / 'proofs' / function.place / 'Proof.antt').exists()


def refusals(function, log):
    """The goals of a function that the check says are not met; why its proof no longer fits, if so; the goals at which the prover met a limit of its own."""
    goals = [found[3] for found in re.finditer(rf'^{UNMET}.*\(`([^`]*)`\)', log, re.M) if function.has(found['file'], int(found['line']))]
    searches = [found for found in re.finditer(rf'^{SEARCH}{SAID}', log, re.M) if function.has(found['file'], int(found['line']))]
    limits = [found['name'] for found in searches if LIMIT.search(found['words'])]
    for found in re.finditer(rf'^{REFUSED}{SAID}', log, re.M):
        words = found['words'].split('\n')[0]
        if found['place'] != function.place or 'was not admitted' in words:
            continue
        if GONE.search(words):
            return goals, words, limits
        (limits if LIMIT.search(found['words']) else goals).append(found['name'])
    return goals, None, limits


def refused_at(crate, function, log):
    """The goals at which a function is refused, by its line and the rest of the log; and if at none, why."""
    line = re.search(rf'^fn {crate}::{re.escape(function.path)}: (.*)$', log, re.M)
    if line is None:
        return [], 'it did not reach the prover'
    said = line[1]
    if said == 'proved':
        return [], 'PROVED'
    goals, misfit, limits = refusals(function, log)
    if misfit:
        return [], f'{MISFIT}: {misfit[:100]}'
    searched = re.search(r'`search` did not prove ((?:`[^`]*`(?:, | and )?)+)', said)
    searched = re.findall('`([^`]*)`', searched[1]) if searched else []
    goals = list(dict.fromkeys([*(name for name in searched if name not in limits), *goals]))
    if not goals and (limits or LIMIT.search(said)):
        return [], f'{LIMITED}: {", ".join(limits) or said[:100]}'
    if not goals and 'which is not proved' in said:
        return [], 'not tried, for ' + said.split(': ')[-1].split('; ')[-1]
    return goals, said


def verdict(crate, function, log):
    """AT_GOAL, BY_HAND or WRONG, and in which words the log says so."""
    goals, why = refused_at(crate, function, log)
    if not goals:
        return WRONG, why
    hand = is_by_hand(crate, function)
    return BY_HAND if hand else AT_GOAL, f'refused{" in a proof by hand" if hand else ""} at {", ".join(goals)}'


def check(crate, copy):
    result = subprocess.run(['rt', 'check'], cwd=copy / 'crates' / crate, stdout=subprocess.PIPE, stderr=subprocess.STDOUT, text=True)
    return result.stdout


def copy_to(folder):
    """A copy without what rt has made: `rt check` there begins with what checks in other checkouts kept, as those in this one."""
    shutil.copy(ROOT / 'crates.txt', folder)
    shutil.copytree(ROOT / 'crates', folder / 'crates', ignore=shutil.ignore_patterns('out'))


def try_crate(crate, edits, functions, copy, count):
    before = check(crate, copy)
    if not re.search(r'^logic=proved', before, re.M):
        print(f'{crate}: not proved as it stands', before[-2000:], sep='\n')
        count[WRONG] += len(edits)
        return
    parts = batches(edits, reached(functions))
    print(f'{crate}: {len(edits)} wrong answers in {len(parts)} runs', flush=True)
    sources, names = copy / 'crates' / crate / 'src', None
    for batch in parts:
        apply(batch, functions, sources)
        log = check(crate, copy)
        lost = [edit for edit in batch if MISFIT in verdict(crate, functions[edit.function], log)[1]]
        if lost:
            names = names or follow.names(ROOT / 'crates' / crate)
            bring_along(crate, [functions[edit.function].place for edit in lost], names, sources.parent)
            log = check(crate, copy)
        for edit in batch:
            kind, words = verdict(crate, functions[edit.function], log)
            count[kind] += 1
            print(f'{"!" if kind == WRONG else " "} {crate} {edit.function}: {edit.words}: {words}', flush=True)
        if not re.search('^fn ', log, re.M):
            print(log[:1500])
    # the crates above it are to stand on the crate as it is
    restore(crate, sources)


def main(words):
    only = '--list' in words
    names = [word for word in words if word != '--list']
    lines = [line for line in TABLE.read_text().splitlines() if line and not line.startswith('#')]
    edits = [edit for edit in map(Edit, lines) if not names or any(edit.is_in(name) for name in names)]
    for name in names:
        if not any(edit.is_in(name) for edit in edits):
            sys.exit(f'wrong_answers.py: no edit for {name}')
    crates = list(dict.fromkeys(edit.crate for edit in edits))
    functions = {crate: functions_of(crate) for crate in crates}
    wrong = 0
    for edit in edits:
        why = misfit(edit, functions[edit.crate])
        if why:
            print(f'! {edit.crate} {edit.function}: {edit.words}: {why}')
            wrong += 1
    lacks = list(missing(edits, functions_of_all())) if only and not names else []
    for line in lacks:
        print(f'! {line}')
    if wrong or only:
        print(f'{len(edits)} wrong answers, {wrong} do not fit' + (f', {len(lacks)} are missing' if lacks else ''))
        return wrong + len(lacks) > 0
    count = {AT_GOAL: 0, BY_HAND: 0, WRONG: 0}
    with tempfile.TemporaryDirectory() as folder:
        copy = pathlib.Path(folder)
        copy_to(copy)
        for crate in crates:
            try_crate(crate, [edit for edit in edits if edit.crate == crate], functions[crate], copy, count)
    print(f'{len(edits)} wrong answers:', ', '.join(f'{kind} {number}' for kind, number in count.items()))
    return count[WRONG] > 0


if __name__ == '__main__':
    sys.exit(main(sys.argv[1:]))
