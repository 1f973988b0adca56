#!/usr/bin/env python3
"""usage: check_times.py [--unfinished] LOG > docs/CHECK_TIMES.md      LOG: what a gate printed, as bash .ci/run | tee LOG

Writes after how many seconds a gate that passed had proved each crate, how many wrong edits of each it tried, and how long each part of the gate took.
With --unfinished also of a gate that was ended before; the page then says so."""
import re, signal, sys

PROVED = re.compile(r'^rt: (\w+) (proved|is kept: .*) \(after (\d+) s\)$')
REFUSED = re.compile(r'^rt: must-fail (\w+)/\S+\.edit: refused, as it must be')
BODIES = re.compile(r'^(\w+): (\d+) wrong bodies in \d+ checks?, 0 not')
PART = re.compile(r'^\.ci/run: (.*) took (\d+) s$')
MACHINE = re.compile(r'^\.ci/run: (\d+ processors?)$')
PASSED = re.compile(r'^[1-9]\d* passed, 0 failed$')


class Log:
    def __init__(self, lines):
        self.crates, self.kept, self.edits, self.parts, self.machine = {}, set(), {}, [], None
        self.passed = bool(lines) and bool(PASSED.match(lines[-1]))
        for line in lines:
            if found := PROVED.match(line):
                self.crates[found[1]] = int(found[3])
                self.kept |= {found[1]} if found[2] != 'proved' else set()
            elif found := REFUSED.match(line):
                self.edits[found[1]] = self.edits.get(found[1], 0) + 1
            elif found := BODIES.match(line):
                self.edits[found[1]] = self.edits.get(found[1], 0) + int(found[2])
            elif found := PART.match(line):
                self.parts.append((found[1], int(found[2])))
            elif found := MACHINE.match(line):
                self.machine = found[1]


def minutes(seconds):
    return f'{seconds // 60} min {seconds % 60} s' if seconds >= 60 else f'{seconds} s'


def page(log):
    yield '# Check times\n'
    yield ('Made by `tools/check_times.py` from what a gate printed (`bash .ci/run | tee LOG`), not by hand. Checks run beside each other'
           + (f' ({log.machine})' if log.machine else '')
           + ', each crate\nafter those below it, and edits of definitions beside them, those of bodies afterwards: told is after how many seconds the gate had proved a crate. `rt check` in its folder takes less.\n')
    if not log.passed:
        yield 'This gate was ended before it was through: edits and parts that it had not come to are missing here.\n'
    if log.kept:
        yield f'{len(log.kept)} of the crates were kept from an earlier run of the same files on that machine, and not proved again.\n'
    if log.parts:
        yield '| part of the gate | time |\n|---|---|'
        yield from (f'| {name} | {minutes(seconds)} |' for name, seconds in log.parts)
        yield f'| all | {minutes(sum(seconds for _, seconds in log.parts))} |\n'
    yield '| crate | proved after, s | wrong edits |\n|---|---|---|'
    for crate, seconds in sorted(log.crates.items(), key=lambda it: it[1]):
        yield f'| `{crate}` | {"kept" if crate in log.kept else seconds} | {log.edits.get(crate, "-")} |'
    yield f'| {len(log.crates)} crates | {max(log.crates.values())} | {sum(log.edits.values())} |'


def main(args):
    unfinished = args[:1] == ['--unfinished']
    args = args[1:] if unfinished else args
    if len(args) != 1 or args[0].startswith('-'):
        sys.exit(__doc__)
    try:
        with open(args[0], encoding='utf-8', errors='replace') as f:
            log = Log(f.read().splitlines())
    except OSError as why:
        sys.exit(f'check_times: {why}')
    if not log.passed and not unfinished:
        sys.exit('check_times: this gate did not pass: its last line is not "N passed, 0 failed"')
    if not log.crates:
        sys.exit('check_times: no crate was proved in this log')
    print('\n'.join(page(log)))


if __name__ == '__main__':
    signal.signal(signal.SIGPIPE, signal.SIG_DFL)
    main(sys.argv[1:])
