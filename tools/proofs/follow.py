#!/usr/bin/env python3
"""usage: follow.py CRATE OLD
After a change of code: the goals and steps that a crate's Answers.antt and Invariants.antt name get the names that they have now. Rattle names them
after the source, as `if-tag-lt8` after `tag < 8`, so that a test with another number in it has another name. OLD is a checkout of the state before the
change, with the proofs as they were. Functions that have other goals or steps now, or as many in another order, are told and left: `rt check` says what is open.
Run it at the repository's root; it takes some seconds and proves nothing."""
import json, os, re, subprocess, sys, tempfile

WORD = re.compile(r"[^\W\d][\w'·₀-₉-]*")


def names(crate_folder):
    """Of each folder of a proof, below `proofs`: its goals and steps in their order, each with a key that says which it is and the name that it has."""
    with tempfile.TemporaryDirectory() as out:
        done = subprocess.run(['rt', 'names', out], cwd=crate_folder, stdout=subprocess.PIPE, stderr=subprocess.STDOUT, text=True)
        try:
            with open(os.path.join(out, 'names.json'), encoding='utf-8') as f:
                told = json.load(f)
        except (OSError, ValueError):
            sys.exit(f'{crate_folder}: rt names wrote nothing:\n{done.stdout[-2000:]}')
    return listed(told, os.path.basename(os.path.realpath(crate_folder)))


def listed(told, crate):
    """The same of what `rt names` wrote. In a cycle of calls each member's goals have its name before theirs."""
    found = {}
    for module, it in told.items():
        place = re.fullmatch(rf'Rattle-{crate}-proofs\.(.*)\.Lts(?:-(\w+))?', module)
        if place:
            own = [('goal', key, it['stem'] + name) for key, name in it['needs']]
            own += [(kind, loop[0][0], it['stem'] + kind + loop[0][1]) for loop in it['loops'] for kind in ('invariant-', 'decreases-')]
            own += [('at', at[0], name) for at, name in zip(it['places'], it['places_by_name'])]
            own += [('step', *at[2]) for at in it['places']]
            found.setdefault(place[1].replace('.', '/'), []).extend(((place[2], kind, key), name) for kind, key, name in own)
    return found


def renamings(before, after):
    """Of each folder of a proof whose names are others now: old name -> new name; None where the goals or steps themselves are others."""
    found = {}
    for place, was in before.items():
        now = after.get(place)
        if now is None or [key for key, _ in was] != [key for key, _ in now]:
            found[place] = None
            continue
        moved = {}
        for (_, old), (_, new) in zip(was, now):
            moved.setdefault(old, set()).add(new)
        if any(len(new) > 1 for new in moved.values()):
            found[place] = None
        elif moved := {old: min(new) for old, new in moved.items() if {old} != new}:
            found[place] = moved
    return found


def followed(text, moved):
    """A proof's text with the new names. A goal of one named clause has the clause's name after its own."""
    def named(word):
        goal, *clause = word[0].split('-clause-', 1)
        return moved.get(word[0]) or '-clause-'.join([moved.get(goal, goal), *clause])

    return WORD.sub(named, text)


def files(crate_folder, place):
    """The files of a proof that cite goals and steps."""
    paths = (os.path.join(crate_folder, 'proofs', place, name) for name in ('Invariants.antt', 'Answers.antt'))
    return [path for path in paths if os.path.exists(path)]


def main(args):
    if len(args) != 2 or args[0].startswith('-'):
        sys.exit(__doc__)
    here, old = (os.path.join(root, 'crates', args[0]) for root in ('.', args[1]))
    for folder in (here, old):
        if not os.path.isdir(folder):
            sys.exit(f'there is no {folder}')
    told = False
    for place, moved in sorted(renamings(names(old), names(here)).items()):
        if moved is None:
            if files(here, place):
                print(f'{place}: it has other goals or steps now')
                told = True
            continue
        for path in files(here, place):
            with open(path, encoding='utf-8') as f:
                text = f.read()
            if followed(text, moved) != text:
                with open(path, 'w', encoding='utf-8') as f:
                    f.write(followed(text, moved))
                print(f'{place}/{os.path.basename(path)}:', ', '.join(f'{a} is {b}' for a, b in sorted(moved.items()) if re.search(rf"(?<![\w'-]){re.escape(a)}(?=-clause-|(?![\w'-]))", text)))
    return told


if __name__ == '__main__':
    sys.exit(main(sys.argv[1:]))
