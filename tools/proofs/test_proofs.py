"""Tests of the tools on a small made repository and on a stand-in for `rt`. Run by test.sh."""
import os, shutil, subprocess, sys, tempfile, unittest
sys.dont_write_bytecode = True
import follow

HERE = os.path.dirname(os.path.abspath(__file__))
# `rt names OUT` tells names after the numbers in the code's tests; `rt check` says what it says
RT = '''#!/usr/bin/env python3
import json, re, sys
if sys.argv[1] == 'check':
    print(open('said').read(), end='')
    sys.exit(1)
assert sys.argv[1] == 'names', sys.argv
code = open('src/lib.rt').read()
told = {'off:one': {}, 'words:': 'plain'}
for name, body in re.findall(r'fn (\\w+)\\(.*?\\n(.*?)\\n}', code, re.S):
    tests = re.findall(r'if x (?:==|<) (\\w+)', body)
    told[f'Rattle-one-proofs.{name}.Lts'] = {
        'stem': '', 'loops': [[['loop', 'loop-' + it], []] for it in re.findall(r'while (\\w+)', body)],
        'needs': [[f'returns-{i}', f'returns-then-x-{it}'] for i, it in enumerate(tests, 1)] + [['returns', 'returns']],
        'places': [['Start', None, ['', ''], None, []]] + [[f'Then{i}', 'Start', [f'if{i}', f'if-x-{it}'], None, []] for i, it in enumerate(tests, 1)],
        'places_by_name': ['Start'] + [f'Then-x-{it}' for it in tests]}
json.dump(told, open(sys.argv[2] + '/names.json', 'w'))
'''
ANSWERS = '''use Rattle.one.proofs.f.Goals as goal

-- if-x-8 is named after the test
pub returns-then-x-8 : goal.returns-then-x-8
returns-then-x-8 c = law c.if-x-8.true c.if-x-88.true

pub returns : goal.returns
returns c = rest c.if-x-8.false
'''


def write(path, text):
    os.makedirs(os.path.dirname(path), exist_ok=True)
    with open(path, 'w', encoding='utf-8') as f:
        f.write(text)


def read(path):
    with open(path, encoding='utf-8') as f:
        return f.read()


class Names(unittest.TestCase):
    def told(self, number, stem='', more=()):
        places = [['Start', None, ['', ''], None, []], ['Then1', 'Start', ['if1', f'if-{number}'], None, []], ['In', 'Start', ['loop', f'loop-{number}'], None, []]]
        return {'stem': stem, 'loops': [[['loop', f'loop-{number}'], ['x']]], 'needs': [['returns-1', f'returns-then-{number}'], *more],
                'places': places, 'places_by_name': ['Start', f'Then-{number}', 'In']}

    def moved(self, before, after):
        return follow.renamings(follow.listed(before, 'one'), follow.listed(after, 'one'))

    def test_what_has_another_name(self):
        before, after = {'Rattle-one-proofs.m.f.Lts': self.told('a')}, {'Rattle-one-proofs.m.f.Lts': self.told('b')}
        self.assertEqual(self.moved(before, after), {'m/f': {'returns-then-a': 'returns-then-b', 'if-a': 'if-b', 'Then-a': 'Then-b', 'loop-a': 'loop-b',
                                                             'invariant-loop-a': 'invariant-loop-b', 'decreases-loop-a': 'decreases-loop-b'}} )
        self.assertEqual(self.moved(before, before), {})

    def test_what_is_no_longer_the_same(self):
        before = {'Rattle-one-proofs.f.Lts': self.told('a')}
        self.assertEqual(self.moved(before, {'Rattle-one-proofs.f.Lts': self.told('a', more=[['returns-2', 'returns-then-c']])}), {'f': None})
        self.assertEqual(self.moved(before, {}), {'f': None})

    def test_a_cycle_has_one_proof(self):
        before = {'Rattle-one-proofs.+ring.Lts-f': self.told('a', 'f-'), 'Rattle-one-proofs.+ring.Lts-g': self.told('z', 'g-'), 'Rattle-other-proofs.f.Lts': self.told('a')}
        after = {**before, 'Rattle-one-proofs.+ring.Lts-f': self.told('b', 'f-')}
        self.assertEqual(self.moved(before, after)['+ring'], {'f-returns-then-a': 'f-returns-then-b', 'if-a': 'if-b', 'Then-a': 'Then-b', 'loop-a': 'loop-b',
                                                              'f-invariant-loop-a': 'f-invariant-loop-b', 'f-decreases-loop-a': 'f-decreases-loop-b'})
        both = {**before, 'Rattle-one-proofs.+ring.Lts-g': self.told('a', 'g-')}
        self.assertEqual(self.moved(both, {**after, 'Rattle-one-proofs.+ring.Lts-g': self.told('a', 'g-')}), {'+ring': None})

    def test_a_proof_with_other_names(self):
        self.assertEqual(follow.followed('pub a-b : goal.a-b\na-b c = f c.a-b.true (a-b-c c.a) (c.in.a-b)', {'a-b': 'd'}), 'pub d : goal.d\nd c = f c.d.true (a-b-c c.a) (c.in.d)')
        self.assertEqual(follow.followed('x y', {'x': 'y', 'y': 'x'}), 'y x')
        self.assertEqual(follow.followed('pub a-clause-x : goal.a-clause-x', {'a': 'b'}), 'pub b-clause-x : goal.b-clause-x')


class Commands(unittest.TestCase):
    def setUp(self):
        self.root = tempfile.mkdtemp()
        self.addCleanup(shutil.rmtree, self.root)
        write(self.root + '/bin/rt', RT)
        os.chmod(self.root + '/bin/rt', 0o755)
        os.makedirs(self.root + '/tools/proofs')
        for name in ('tools/wrong_answers.py', 'tools/proofs/follow.py', 'tools/proofs/check.py', 'tools/proofs/dv.sh'):
            shutil.copy(os.path.join(HERE, '..', '..', name), f'{self.root}/{name}')
        write(self.root + '/crates.txt', '# all\none staticlib: # no others\n')
        self.code('    if x == 8 {\n        return 1;\n    }\n    if x < 88 {\n        return 2;\n    }\n    3')
        self.put('f/Answers.antt', ANSWERS)

    def code(self, body, root=None):
        write((root or self.root) + '/crates/one/src/lib.rt', f'fn f(x: u8) -> u8\n{{\n{body}\n}}\n\nstruct Kind {{}}\nimpl Kind {{\n    fn g() {{\n    }}\n}}\n')

    def put(self, name, text):
        write(f'{self.root}/crates/one/proofs/{name}', text)

    def run_tool(self, *args):
        env = dict(os.environ, PATH=self.root + '/bin:' + os.environ['PATH'])
        words = [sys.executable, '-B'] if args[0].endswith('.py') else ['sh']
        r = subprocess.run([*words, f'tools/proofs/{args[0]}', *args[1:]], cwd=self.root, env=env, stdout=subprocess.PIPE, stderr=subprocess.STDOUT, text=True)
        return r.returncode, r.stdout

    def test_follow(self):
        shutil.copytree(self.root + '/crates', self.root + '/old/crates')
        self.assertEqual(self.run_tool('follow.py', 'one', 'old'), (0, ''))
        self.code('    if x == 9 {\n        return 1;\n    }\n    if x < 8 {\n        return 2;\n    }\n    3')
        code, out = self.run_tool('follow.py', 'one', 'old')
        self.assertEqual((code, out), (0, 'f/Answers.antt: if-x-8 is if-x-9, if-x-88 is if-x-8, returns-then-x-8 is returns-then-x-9\n'))
        expected = ANSWERS.replace('x-8 ', 'x-9 ').replace('x-8\n', 'x-9\n').replace('if-x-8.', 'if-x-9.').replace('if-x-88', 'if-x-8')
        self.assertEqual(read(self.root + '/crates/one/proofs/f/Answers.antt'), expected)

    def test_follow_tells_other_goals(self):
        shutil.copytree(self.root + '/crates', self.root + '/old/crates')
        self.code('    3')
        self.assertEqual(self.run_tool('follow.py', 'one', 'old'), (1, 'f: it has other goals or steps now\n'))
        self.assertEqual(read(self.root + '/crates/one/proofs/f/Answers.antt'), ANSWERS)

    def test_check(self):
        self.put('Kind/g/Invariants.antt', 'use a\n')
        self.put('OneLaws.antt', 'use a\n')
        self.assertEqual(self.run_tool('check.py'), (0, 'proofs: 2 with answers\n'))
        self.put('h/Answers.antt', 'use a\n')
        self.put('f/answers.txt', 'returns := refl\n')
        self.put('f/Proof.antt', 'use a\n')
        code, out = self.run_tool('check.py', 'one')
        self.assertEqual(code, 1)
        for line in ('f: answers.txt, which no check reads', 'f: a walk by hand beside answers', 'h: no function of the code has this proof'):
            self.assertIn(f'crates/one/proofs/{line}\n', out)
        self.assertIn('proofs: 2 with answers, 1 by hand\n', out)

    def test_check_by_hand(self):
        shutil.rmtree(self.root + '/crates/one/proofs/f')
        self.put('f/Proof.antt', 'use a\n')
        self.assertEqual(self.run_tool('check.py'), (0, 'proofs: 1 by hand\n'))

    def test_dv(self):
        write(self.root + '/crates/one/said', 'rt: chose --jobs 2 for one\nchecked one::f, 1 of 1\n./proofs/f/Answers.antt:5:2: error: `returns`: the two types differ\n'
              '  = 0 here\nnote: src/lib.rt:3:1: it is not proved that it holds (`returns-2`)\nnote: to see how far a `search` got\nfn one::f: not proved\nhelp: write this\n'
              '    pub returns : goal.returns\nstatements core: modules loaded=222 checked=0\nlogic=not-proved\n')
        self.assertEqual(self.run_tool('dv.sh', 'one')[1], './proofs/f/Answers.antt:5:2: error: `returns`: the two types differ\n'
                         'note: src/lib.rt:3:1: it is not proved that it holds (`returns-2`)\nfn one::f: not proved\nlogic=not-proved\n')
        self.assertIn('\nfn one::f: not\n', self.run_tool('dv.sh', 'one', '14')[1])

    def test_usage(self):
        for tool in ('follow.py', 'dv.sh'):
            code, out = self.run_tool(tool)
            self.assertEqual((code != 0, out.startswith('usage: ' + tool)), (True, True), out)
        self.assertEqual(self.run_tool('check.py', '--all')[0], 1)
        self.assertIn('there is no crate two', self.run_tool('check.py', 'two')[1])


if __name__ == '__main__': unittest.main()
