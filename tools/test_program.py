"""Tests of the script program and of `./puntclover`, which builds and runs it; and of the program with a meter."""
import os
import shutil
import subprocess
import tempfile
import unittest

ROOT = os.path.dirname(os.path.dirname(os.path.realpath(__file__)))
PROGRAM = os.path.join(ROOT, 'puntclover')
METERED = os.path.join(ROOT, 'puntclover-meter')
SCRIPT = b'units 2\nup 0 1 5 7\ndeliver 0 1\ndeliver 0 1\nshow\n'
ANSWERS = (b'ok\nok\nok\nrefused 8\n'
           b'unit 0 active\n0 1 5 5 1\nunit 1 active\n1 0 7 7 0\n')


def run(*words, script=b'', program=PROGRAM, **more):
    """The program with words, on a script."""
    if 'stdin' not in more:
        more['input'] = script
    return subprocess.run([program, *words], stdout=more.pop('stdout', subprocess.PIPE), stderr=subprocess.PIPE,
                          timeout=120, check=False, **more)


def run_by_shell(command):
    """A line of shell, in which $0 is the program."""
    return subprocess.run(['bash', '-c', command, PROGRAM], stdout=subprocess.PIPE, stderr=subprocess.PIPE,
                          timeout=120, check=False)


class Running(unittest.TestCase):
    """Input and output."""

    def answers(self, script):
        """What a script prints; nothing goes wrong."""
        done = run(script=script)
        self.assertEqual((done.returncode, done.stderr), (0, b''))
        return done.stdout

    def test_standard_input(self):
        self.assertEqual(self.answers(SCRIPT), ANSWERS)

    def test_nothing(self):
        self.assertEqual(self.answers(b''), b'')

    def test_last_line_without_newline(self):
        self.assertEqual(self.answers(SCRIPT[:-1]), ANSWERS)

    def test_longest_command(self):
        long = b'up 999999999 999999999 999999999 999999999'
        self.assertEqual(len(long), 42)
        self.assertEqual(self.answers(b'units 2\n' + long + b'\n' + long + b'9\n'), b'ok\nrefused 3\nbad line\n')

    def test_commands_longer_than_sixteen_bytes(self):
        shown = self.answers(b'units 2\nup 0 1 12345 12345\nshow\n')
        self.assertEqual(shown, b'ok\nok\nunit 0 active\n0 1 12345 12345 1\nunit 1 active\n1 0 12345 12345 0\n')

    def test_long_lines(self):
        script = b'x' * 10_000_000 + b'\nunits 2\n' + b'units 2' + b' ' * 10_000_000
        self.assertEqual(self.answers(script), b'bad line\nok\nbad line\n')

    def test_bytes_that_are_no_text(self):
        self.assertEqual(self.answers(b'units 2\r\n\x00\n\xff\n\n'), b'bad line\n' * 4)

    def test_before_a_good_units(self):
        self.assertEqual(self.answers(b'show\nup 0 1 1 1\nunits 1\nhello\ndeliver 0 1\n'),
                         b'refused 2\nrefused 2\nrefused 1\nbad line\nrefused 2\n')

    def test_more_answers_than_the_buffer_holds(self):
        self.assertEqual(self.answers(b'units 16\n' + b'show\n' * 100 + b'x'),
                         b'ok\n' + self.answers(b'units 16\nshow\n')[3:] * 100 + b'bad line\n')

    def test_byte_by_byte(self):
        with subprocess.Popen([PROGRAM], stdin=subprocess.PIPE, stdout=subprocess.PIPE) as program:
            for place in range(len(SCRIPT)):
                program.stdin.write(SCRIPT[place:place + 1])
                program.stdin.flush()
            self.assertEqual(program.communicate(timeout=60)[0], ANSWERS)
            self.assertEqual(program.returncode, 0)

    def test_answers_come_before_the_next_line(self):
        with subprocess.Popen([PROGRAM], stdin=subprocess.PIPE, stdout=subprocess.PIPE) as program:
            for line, answer in ((b'units 2\n', b'ok\n'), (b'hello\n', b'bad line\n'), (b'up 0 2 1 1\n', b'refused 3\n')):
                program.stdin.write(line)
                program.stdin.flush()
                self.assertEqual(program.stdout.readline(), answer)
            self.assertEqual(program.communicate(timeout=60)[0], b'')


class Options(unittest.TestCase):
    """Words after the name."""

    def test_file(self):
        with tempfile.NamedTemporaryFile() as file:
            file.write(SCRIPT)
            file.flush()
            done = run(file.name)
        self.assertEqual((done.returncode, done.stdout, done.stderr), (0, ANSWERS, b''))

    def test_pipe_as_file(self):
        done = run_by_shell("\"$0\" <(printf 'units 2\\n')")
        self.assertEqual((done.returncode, done.stdout), (0, b'ok\n'))

    def test_help(self):
        for option in ('-h', '--help'):
            done = run(option)
            self.assertEqual((done.returncode, done.stderr), (0, b''))
            self.assertIn(b'puntclover [FILE]', done.stdout)

    def test_version(self):
        done = run('--version')
        self.assertEqual((done.returncode, done.stderr), (0, b''))
        self.assertRegex(done.stdout, rb'^puntclover \d+\.\d+\.\d+\n$')

    def test_wrong_words(self):
        for words in (('--fast',), ('a', 'b')):
            done = run(*words)
            self.assertEqual((done.returncode, done.stdout), (2, b''))
            self.assertIn(b'Usage: ', done.stderr)

    def test_through_a_link(self):
        with tempfile.TemporaryDirectory() as folder:
            link = os.path.join(folder, 'link')
            os.symlink(PROGRAM, link)
            self.assertEqual(run(script=SCRIPT, program=link, cwd=folder).stdout, ANSWERS)
            self.assertEqual(run('--version', program=link, cwd=folder).returncode, 0)


class Metering(unittest.TestCase):
    """The program with a meter: the script's commands, and those of the meter."""

    LINE = b'units 3\nup 0 1 1 1\nup 1 2 1 1\n' + b'deliver 0 1\ndeliver 1 0\ndeliver 1 2\ndeliver 2 1\n' * 4

    def answers(self, script, program=METERED):
        """What a script prints; nothing goes wrong."""
        done = run(script=script, program=program)
        self.assertEqual((done.returncode, done.stderr), (0, b''))
        return done.stdout

    def after_line(self, script):
        """What a script prints once three units stand in a line."""
        return self.answers(self.LINE + script)[len(self.answers(self.LINE)):]

    def test_script(self):
        self.assertEqual(self.answers(SCRIPT), ANSWERS)

    def test_name(self):
        self.assertRegex(run('--version', program=METERED).stdout, rb'^puntclover-meter \d+\.\d+\.\d+\n$')
        self.assertTrue(run(ROOT, program=METERED).stderr.startswith(b'puntclover-meter: '))

    def test_only_with_a_meter(self):
        script = b'units 2\nenter 1 0 1\nmove 0 1\ndrop 0\npage\n'
        self.assertEqual(self.answers(script, program=PROGRAM), b'ok\n' + b'bad line\n' * 4)

    def test_before_a_good_units(self):
        self.assertEqual(self.answers(b'enter 1 0 1\nmove 0 1\ndrop 0\npage\n'), b'refused 2\n' * 4)

    def test_delivered(self):
        self.assertEqual(self.after_line(b'enter 1500 0 2\nmove 0 1\npage\nmove 0 2\npage\n'),
                         b'held 0\nheld 0\nentered 1500\ndelivered 0\ndropped 0\nheld 1500\nframes 1\n'
                         b'frame 0 size 1500 at 1 to 2 hops 1\n'
                         b'delivered\nentered 1500\ndelivered 1500\ndropped 0\nheld 0\nframes 0\n')

    def test_dropped(self):
        self.assertEqual(self.after_line(b'enter 7 0 2\nenter 8 2 0\ndrop 0\ndrop 0\nenter 9 1 1\npage\n'),
                         b'held 0\nheld 1\ndropped\nrefused 16\ndelivered\n'
                         b'entered 24\ndelivered 9\ndropped 7\nheld 8\nframes 1\nframe 1 size 8 at 2 to 0 hops 0\n')

    def test_refused(self):
        self.assertEqual(self.after_line(b'enter 0 0 2\nenter 65536 0 2\nenter 1 0 3\nmove 0 1\nenter 1 0 2\nmove 0 2\n'),
                         b'refused 16\nrefused 16\nrefused 3\nrefused 16\nheld 0\nrefused 16\n')

    def test_full(self):
        held = b''.join(b'held %d\n' % place for place in range(64))
        self.assertEqual(self.after_line(b'enter 1 0 2\n' * 65), held + b'refused 14\n')

    def test_units_starts_the_meter_afresh(self):
        self.assertEqual(self.after_line(b'enter 5 0 2\nunits 1\npage\nunits 2\npage\n'),
                         b'held 0\nrefused 1\nentered 5\ndelivered 0\ndropped 0\nheld 5\nframes 1\n'
                         b'frame 0 size 5 at 0 to 2 hops 0\n'
                         b'ok\nentered 0\ndelivered 0\ndropped 0\nheld 0\nframes 0\n')


class Failing(unittest.TestCase):
    """What can't be read or written is told, with a status that isn't 0."""

    def fails(self, done, told, written=b''):
        """It told why, wrote no more, and has status 1."""
        self.assertEqual((done.returncode, done.stdout), (1, written))
        self.assertIn(told, done.stderr)
        self.assertTrue(done.stderr.startswith(b'puntclover: '))

    def test_folder_as_file(self):
        self.fails(run(ROOT), b'is a directory')

    def test_missing_file(self):
        self.fails(run('/nowhere/at all'), b'/nowhere/at all: no such file')

    def test_folder_as_input(self):
        self.fails(run_by_shell('"$0" <.'), b'read: Is a directory')

    def test_closed_input(self):
        self.fails(run_by_shell('"$0" <&-'), b'standard input is closed')

    def test_input_that_does_not_wait(self):
        reader, writer = os.pipe()
        try:
            os.set_blocking(reader, False)
            os.write(writer, b'units 2\nunits')
            self.fails(run(stdin=reader), b'read: Resource temporarily unavailable', written=b'ok\n')
        finally:
            os.close(reader)
            os.close(writer)

    def test_closed_output(self):
        done = run_by_shell('printf "units 2\\n" | "$0" >&-')
        self.fails(done, b'standard output is closed')

    def test_full_output(self):
        with open('/dev/full', 'wb') as full:
            done = run(script=SCRIPT, stdout=full)
        self.assertEqual(done.returncode, 1)
        self.assertIn(b'write: No space left on device', done.stderr)

    def test_full_output_at_the_end(self):
        with open('/dev/full', 'wb') as full:
            done = run(script=b'show', stdout=full)
        self.assertEqual(done.returncode, 1)

    def test_output_that_nobody_reads(self):
        done = run_by_shell("{ printf 'units 16\\n'; yes show; } | head -n 1000 | { \"$0\"; echo \"$?\" >&2; } | head -n 1")
        self.assertEqual(done.stdout, b'ok\n')
        self.assertEqual(done.stderr, b'141\n')


class Building(unittest.TestCase):
    """The program is built where it is missing, by a stand-in for rt."""

    def setUp(self):
        self.folder = tempfile.mkdtemp()
        self.addCleanup(shutil.rmtree, self.folder)
        shutil.copy(PROGRAM, self.folder)
        os.mkdir(os.path.join(self.folder, 'tools'))
        shutil.copy(os.path.join(ROOT, 'tools', 'run-program'), os.path.join(self.folder, 'tools'))
        for name in ('one', 'two', 'other', 'puntclover'):
            os.makedirs(os.path.join(self.folder, 'crates', name, 'src'))
        self.write('crates.txt', '# crates\none:\nother: one\ntwo: one\npuntclover: one two io\n')

    def write(self, name, text):
        """A file of the stand-in's folder."""
        with open(os.path.join(self.folder, name), 'w', encoding='utf-8') as file:
            file.write(text)

    def run_with(self, rt):
        """The program, with a shell script for rt."""
        self.write('rt', '#!/bin/sh\n' + rt)
        os.chmod(os.path.join(self.folder, 'rt'), 0o755)
        return run(script=b'a line\n', program=os.path.join(self.folder, 'puntclover'),
                   env={'PATH': self.folder + ':' + os.environ['PATH']})

    def test_progress(self):
        done = self.run_with('echo "logic=proved functions=3"; echo "fn two::f: proved"; echo "logic=proved functions=1"\n'
                             'echo "logic=proved functions=1"; mkdir -p out\n'
                             'cp "$(command -v cat)" out/puntclover\n')
        self.assertEqual((done.returncode, done.stdout), (0, b'a line\n'))
        told = done.stderr.decode().splitlines()
        self.assertIn(os.path.join(self.folder, 'target', 'puntclover.log'), told[0])
        self.assertEqual([line.rpartition(',')[0] for line in told[1:]],
                         [f'puntclover: crate {i} of 3' for i in (1, 2, 3)])
        self.assertRegex(told[1], r', \d+ s so far$')
        self.assertEqual(run(script=b'more', program=os.path.join(self.folder, 'puntclover')).stderr, b'')

    def test_failed_build(self):
        done = self.run_with('echo "logic=proved functions=3"; echo "two is wrong"; exit 1\n')
        self.assertEqual((done.returncode, done.stdout), (1, b''))
        self.assertIn(b'two is wrong', done.stderr)
        self.assertIn(b'target/puntclover.log', done.stderr.splitlines()[-1])


if __name__ == '__main__':
    unittest.main()
