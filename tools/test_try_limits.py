#!/usr/bin/env python3
"""Tests of tools/try-limits, on a small repository with programs in place of rt and cargo."""
import os
import stat
import subprocess
import tempfile
import unittest

TOOL = os.path.join(os.path.dirname(os.path.realpath(__file__)), 'try-limits')

FILES = {
    'crates/ground/specs/Limits.antt': '-- At most 16.\nabbrev pub unit_limit : ℕ\nunit_limit = 16\nqueue_room = 4\n',
    'crates/ground/src/lib.rt': 'pub const UNITS: usize = 16;\npub const ENTRIES: usize = UNITS - 1;\npub const QUEUE_ROOM: usize = 4;\n',
    'second/src/limits.rs': 'pub const UNITS: usize = 16;\npub const QUEUE_ROOM: usize = 4;\n',
    'crates/rules/proofs/Figures.antt': '-- Counts 1 and 17 refused.\n(map fresh_refusal (1 ∷ 17 ∷ 2 ∷ 16 ∷ []) is [])\n',
    'target/stamp': 'of another limit\n',
}

HELD = ''.join(list(FILES.values())[:4])

# What rt says: one crate is proved, one has two errors, one depends on it.
RT = '''#!/bin/sh
[ "$*" = 'all check' ] && [ ! -e target ] || exit 2
cat crates/ground/specs/Limits.antt crates/ground/src/lib.rt second/src/limits.rs crates/rules/proofs/Figures.antt >"$SEEN"
printf '== ground\\nfn ground::add: proved\\n== tree\\nfn tree::grow: not proved\\n'
printf './proofs/Tree.antt:3:9: error: `grown`: no\\n./proofs/Tree.antt:4:9: error: `grown`: nor\\n'
printf '== summary\\nground: ok\\ntree: failed (1)\\nrules: not run, since tree failed\\n1 of 3 crates ok\\n'
exit 1
'''
CARGO = '''#!/bin/sh
printf 'test one ... ok\\ntest two ... ok\\ntest three ... FAILED\\ntest result: FAILED. 2 passed\\n'
'''


class TryLimits(unittest.TestCase):
    def setUp(self):
        held = tempfile.TemporaryDirectory()
        self.addCleanup(held.cleanup)
        self.root = os.path.join(held.name, 'repository')
        self.seen = os.path.join(held.name, 'seen')
        self.programs = os.path.join(held.name, 'programs')
        for name, text in FILES.items():
            self.put(os.path.join(self.root, name), text)
        self.program('rt', RT)
        self.program('cargo', CARGO)

    def put(self, path, text):
        os.makedirs(os.path.dirname(path), exist_ok=True)
        with open(path, 'w', encoding='utf-8') as file:
            file.write(text)

    def program(self, name, text):
        path = os.path.join(self.programs, name)
        self.put(path, text)
        os.chmod(path, os.stat(path).st_mode | stat.S_IXUSR)

    def run_tool(self, *arguments):
        room = {**os.environ, 'PATH': self.programs + ':' + os.environ['PATH'], 'SEEN': self.seen}
        done = subprocess.run([TOOL, '-r', self.root, *arguments], capture_output=True, env=room)
        return done.returncode, done.stdout.decode().splitlines(), done.stderr.decode()

    def tried(self, *arguments):
        """What rt met in the copy, after a trial that ends as the programs say."""
        self.assertEqual(self.run_tool(*arguments), (1, [
            'ground              proved',
            'tree                NOT PROVED: crates/tree/proofs/Tree.antt:3:9: error: `grown`: no',
            'rules               NOT PROVED: tree failed',
            '1 of 3 crates proved',
            'second: 2 tests pass, 1 fail',
            '  three'], ''))
        for name, text in FILES.items():
            with open(os.path.join(self.root, name), encoding='utf-8') as file:
                self.assertEqual(file.read(), text, name)
        with open(self.seen, encoding='utf-8') as file:
            return file.read()

    def test_units(self):
        changed = HELD.replace('unit_limit = 16', 'unit_limit = 24').replace('usize = 16', 'usize = 24')
        self.assertEqual(self.tried('units', '24'), changed.replace('(1 ∷ 17 ∷ 2 ∷ 16 ∷ [])', '(1 ∷ 25 ∷ 2 ∷ 24 ∷ [])'))

    def test_queue(self):
        changed = HELD.replace('queue_room = 4', 'queue_room = 2').replace('usize = 4', 'usize = 2')
        self.assertEqual(self.tried('queue', '2'), changed)

    def test_all_proved(self):
        self.program('rt', '#!/bin/sh\nprintf "== summary\\nground: ok\\n"\n')
        status, lines, _ = self.run_tool('queue', '2')
        self.assertEqual((status, lines[1]), (0, '1 of 1 crates proved'))

    def test_bad_arguments(self):
        for arguments in ((), ('units',), ('queue', 'two'), ('unit', '24'), ('units', '1'), ('queue', '0'), ('units', '2', '3')):
            status, lines, said = self.run_tool(*arguments)
            self.assertEqual((status, lines), (2, []), arguments)
            self.assertIn('usage: try-limits', said)
        self.assertFalse(os.path.exists(self.seen))

    def test_help(self):
        status, lines, _ = self.run_tool('--help')
        self.assertEqual(status, 0)
        self.assertIn('try-limits units 24   with at most 24 units', lines)

    def refuses(self, said):
        self.assertEqual(self.run_tool('units', '24'), (1, [], f'try-limits: {said}\n'))

    def test_a_limit_that_is_not_there(self):
        self.put(os.path.join(self.root, 'crates/ground/src/lib.rt'), 'pub const UNITS: usize = 8 + 8;\n')
        self.refuses('crates/ground/src/lib.rt: "pub const UNITS: usize = 24;" with another number stands there 0 times')

    def test_a_file_that_is_not_there(self):
        os.remove(os.path.join(self.root, 'second/src/limits.rs'))
        status, _, said = self.run_tool('units', '24')
        self.assertEqual(status, 1)
        self.assertIn('second/src/limits.rs: No such file or directory', said)

    def test_nothing_built(self):
        self.program('cargo', '#!/bin/sh\necho "error: no such thing"\nexit 101\n')
        status, _, said = self.run_tool('units', '24')
        self.assertEqual((status, said), (1, 'try-limits: the second program is not built: error: no such thing\n'))


if __name__ == '__main__':
    unittest.main()
