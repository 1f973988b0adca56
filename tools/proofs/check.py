#!/usr/bin/env python3
"""usage: check.py [CRATE..]
Tells each folder of a proof that belongs to no function of its crate's code, and each file there that the check doesn't read. Without crates: all
of them. It takes a second and runs nothing; whether a proof holds says `rt check`.
A proof is Answers.antt, with Invariants.antt where there is a loop or a cycle of calls. A Proof.antt is a walk by hand."""
import collections, os, sys
sys.dont_write_bytecode = True
sys.path.insert(0, os.path.dirname(os.path.dirname(os.path.abspath(__file__))))
from wrong_answers import ROOT, functions_of

ANSWERED, HAND = ('Answers.antt', 'Invariants.antt'), 'Proof.antt'


def listed():
    with open(ROOT / 'crates.txt', encoding='utf-8') as f:
        lines = [line.split('#')[0] for line in f]
    return [line.split(':')[0].split()[0] for line in lines if ':' in line]


def looked_at(crate):
    """Of each folder of a proof: its place, what it is, and what is wrong with it."""
    places = {function.place for function in functions_of(crate).values()}
    top = ROOT / 'crates' / crate / 'proofs'
    for folder, folders, files in os.walk(top):
        folders.sort()
        place = os.path.relpath(folder, top)
        if place == '.' or not files and folders:
            continue
        wrong = [f'{name}, which no check reads' for name in sorted(files) if name not in (*ANSWERED, HAND)]
        if place not in places:
            wrong.append('no function of the code has this proof')
        by_hand = HAND in files
        if by_hand and set(files) & set(ANSWERED):
            wrong.append('a walk by hand beside answers')
        if not files:
            wrong.append('it is empty')
        yield place, 'by hand' if by_hand else 'with answers', wrong


def main(args):
    if any(arg.startswith('-') for arg in args):
        sys.exit(__doc__)
    for crate in args:
        if crate not in listed():
            sys.exit(f'there is no crate {crate}')
    count, failed = collections.Counter(), False
    for crate in args or listed():
        for place, kind, wrong in looked_at(crate):
            count[kind] += 1
            for why in wrong:
                print(f'crates/{crate}/proofs/{place}: {why}')
                failed = True
    print('proofs: ' + ', '.join(f'{number} {kind}' for kind, number in sorted(count.items(), reverse=True)))
    return failed


if __name__ == '__main__':
    sys.exit(main(sys.argv[1:]))
