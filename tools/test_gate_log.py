#!/usr/bin/env python3
"""Tests of tools/gate-log, on logs made for them."""
import os
import subprocess
import tempfile
import unittest

TOOL = os.path.join(os.path.dirname(os.path.realpath(__file__)), 'gate-log')

LOG = '''fn low::add: proved
rt: low proved
rt: high proved
rt: must-fail low/one.edit: refused, as it must be: ./proofs/add/Answers.antt:20:5: error: `returns`: expected type `1 ≡ 2`
rt: must-fail high/two.edit: refused, as it must be: ./proofs/Laws.antt:7:1: error: `law`: `search`: no proof of `1 ≡ 2`
rt: ok; handles allowed: none; must-fail edits: 2 refused; every proof and must-fail edit was done in this run
2 passed, 0 failed
'''


class GateLog(unittest.TestCase):
    def run_tool(self, *arguments, log=LOG):
        with tempfile.NamedTemporaryFile('w', encoding='utf-8') as file:
            file.write(log)
            file.flush()
            done = subprocess.run([TOOL, *arguments, file.name], capture_output=True)
        return done.returncode, done.stdout.decode().splitlines(), done.stderr.decode()

    def test_good(self):
        self.assertEqual(self.run_tool('--fewest', '2'), (0, [
            'low/one: proofs/add/Answers.antt:20:5: `returns`: expected type `1 ≡ 2`',
            'high/two: proofs/Laws.antt:7:1: `law`: `search`: no proof of `1 ≡ 2`',
            'gate-log: 2 must-fail edits refused, 0 wrong'], ''))

    def finds(self, wrong, log, refused=2):
        status, lines, _ = self.run_tool(log=log)
        self.assertEqual((status, lines[-2:]), (1, [wrong, f'gate-log: {refused} must-fail edits refused, 1 wrong']))

    def test_too_few(self):
        status, lines, _ = self.run_tool('--fewest', '3')
        self.assertEqual(status, 1)
        self.assertIn('2 must-fail edits were refused, and there were 3', lines)

    def test_an_error_that_is_no_fact(self):
        wrong = 'low/one: its first error is not about a fact'
        for text in ('`returns`: `seven` is not in scope', '`)` cannot continue the declaration here',
                     '`returns`: `add` was not admitted (it was rejected), so this cannot be checked'):
            self.finds(wrong, LOG.replace('`returns`: expected type `1 ≡ 2`', text))

    def test_an_error_elsewhere(self):
        wrong = 'low/one: its first error is not in proofs/'
        for place in ('specs/Add.antt:3:9', 'src/lib.rt:3:9'):
            self.finds(wrong, LOG.replace('proofs/add/Answers.antt:20:5', place))
        self.finds(wrong, LOG.replace(': ./proofs/add/Answers.antt:20:5: error: `returns`: expected type `1 ≡ 2`', ''))

    def test_not_refused(self):
        for said in ('NOT REFUSED: the crate is still proved', 'BAD EDIT: it changes nothing',
                     'refused, as it must be (only by a limit of the prover): ./proofs/Laws.antt:1:1: error: `law`: no'):
            log = LOG.replace('refused, as it must be: ./proofs/add/Answers.antt:20:5: error: `returns`: expected type `1 ≡ 2`', said)
            self.finds(f'low/one: {said}', log, refused=1)

    def test_bad_edits(self):
        self.finds('1 bad must-fail edits', LOG.replace('2 refused;', '2 refused, 1 bad;'))

    def test_not_passed(self):
        self.finds('rt ci did not pass: 1 passed, 1 failed', LOG.replace('2 passed, 0 failed', '1 passed, 1 failed'))
        self.finds('rt ci printed no line `rt: ok`', '\n'.join(line for line in LOG.split('\n') if 'rt: ok' not in line))


if __name__ == '__main__':
    unittest.main()
