#!/usr/bin/env python3
"""Tests of tools/draw: every link, cost, arrow and distance is in the picture, and no other; no cost covers anything; what
is said of lines that were not done, and in trouble."""
import glob
import math
import os
import random
import re
import resource
import select
import stat
import subprocess
import tempfile
import unittest
import xml.etree.ElementTree as ElementTree

ROOT = os.path.dirname(os.path.dirname(os.path.realpath(__file__)))
DRAW = os.path.join(ROOT, 'tools', 'draw')
PROGRAM = os.path.join(ROOT, 'puntclover')
SVG = '{http://www.w3.org/2000/svg}'
UNITS = 16         # the most units of a network


def answers(script):
    """What the program prints for a script."""
    return subprocess.run([PROGRAM], input=script, capture_output=True, check=True).stdout.decode().splitlines()


def draw(*arguments, script=None):
    return subprocess.run([DRAW, *arguments], input=script, capture_output=True)


def write(folder, name, content, mode=0o644):
    """A file in a folder; its whole name."""
    name = os.path.join(folder, name)
    with open(name, 'wb') as file:
        file.write(content)
    os.chmod(name, mode)
    return name


class Drawn:
    """A picture, taken apart."""

    def __init__(self, script, destination, *arguments):
        done = draw('-', '-d', str(destination), *arguments, script=script)
        if done.returncode != 0:
            raise AssertionError(done.stderr.decode())
        self.svg = ElementTree.fromstring(done.stdout)

    def every(self, kind):
        return [it for it in self.svg.iter() if kind in it.get('class', '').split()]

    def pairs(self, kind, first, second):
        return sorted((int(it.get(first)), int(it.get(second))) for it in self.every(kind))

    def links(self):
        return self.pairs('link', 'data-a', 'data-b')

    def arrows(self):
        return self.pairs('successor', 'data-from', 'data-to')

    def costs(self):
        return {(int(it.get('data-from')), int(it.get('data-to'))): it.text for it in self.every('cost')}

    def states(self):
        return {int(it.get('data-unit')): 'active' in it.get('class').split() for it in self.every('unit')}

    def beside(self, kind):
        """The words of a kind beside each unit that has some."""
        said = {}
        for it in self.every(kind):
            said.setdefault(int(it.get('data-unit')), []).append(it.text)
        return said

    def distances(self):
        return self.beside('distance')

    def caption(self):
        return self.every('caption')[0].text

    def messages(self):
        """How many messages the caption says are under way."""
        found = re.search('; (no|[0-9]+) messages? under way$', self.caption())
        return 0 if found[1] == 'no' else int(found[1])


def shown(script, count):
    """The last `show` of a script that ends with a newline: states, and rows by unit and destination."""
    states, rows = {}, {}
    for line in answers(script + b'show\n')[-count * count:]:
        words = line.split()
        if words[0] == 'unit':
            states[int(words[1])] = words[2] == 'active'
        else:
            rows[int(words[0]), int(words[1])] = words[2:]
    return states, rows


def links_up(script, count):
    """The links that are up, asked of the program: only a delivery over a link that is down is refused with 6."""
    pairs = [(a, b) for a in range(count) for b in range(a + 1, count)]
    asked = answers(script + ''.join(f'deliver {a} {b}\n' for a, b in pairs).encode())[-len(pairs):]
    return [pair for pair, answer in zip(pairs, asked) if answer != 'refused 6']


def mesh(count, least=10000):
    """A script of all links among so many units, each direction with a cost of its own, and one delivery on each."""
    pairs = [(a, b) for a in range(count) for b in range(a + 1, count)]
    lines = [f'units {count}']
    lines += [f'up {a} {b} {least + 100 * a + b} {least + 100 * b + a}' for a, b in pairs]
    lines += [f'deliver {a} {b}' for a, b in pairs]
    return '\n'.join(lines + ['']).encode()


def example(name):
    with open(os.path.join(ROOT, 'examples', name), 'rb') as file:
        return file.read()


def queued(script, count):
    """How many messages are under way, each queue asked alone, after the whole script again: a delivery from a to b adds
    nothing to that queue. A script begins with a good `units`, so that it has the same answers each time."""
    asked = [f'deliver {a} {b}\n'.encode() * 9 for a in range(count) for b in range(count) if a != b]
    said = answers(b''.join(script + deliveries for deliveries in asked))
    each = len(said) // len(asked)
    return sum(said[each * (at + 1) - 9:each * (at + 1)].count('ok') for at in range(len(asked)))


def lives(seed, count, length):
    """A script of commands drawn by lot, most of them deliveries."""
    lot = random.Random(seed)
    lines = [f'units {count}']
    for _ in range(length):
        a, b = lot.sample(range(count), 2)
        costs = lot.randint(1, 20), lot.randint(1, 20)
        lines.append(lot.choice([f'up {a} {b} {costs[0]} {costs[1]}', f'cost {a} {b} {costs[0]}'] + [f'deliver {a} {b}'] * 4
                                + [f'down {a} {b}'] * (lot.random() < 0.3)))
    return '\n'.join(lines + ['']).encode()


class Examples(unittest.TestCase):
    """Every example, for every destination, against what the program says."""

    def scripts(self):
        names = sorted(glob.glob(os.path.join(ROOT, 'examples', '*.script')))
        self.assertTrue(names)
        for name in names:
            with open(name, 'rb') as file:
                script = file.read()
            yield os.path.basename(name), script, int(re.findall(rb'^units (\d+)$', script, re.MULTILINE)[-1])

    def test_links_are_those_that_are_up(self):
        for name, script, count in self.scripts():
            up = links_up(script, count)
            drawn = Drawn(script, 0)
            self.assertEqual(drawn.links(), up, name)
            self.assertEqual(sorted(drawn.costs()), sorted(up + [(b, a) for a, b in up]), name)

    def test_arrows_states_and_distances_are_those_of_show(self):
        for name, script, count in self.scripts():
            states, rows = shown(script, count)
            for destination in range(count):
                drawn = Drawn(script, destination)
                others = [i for i in range(count) if i != destination]
                arrows = [(i, int(k)) for i in others for k in rows[i, destination][2].split(',') if k != '-']
                said = {i: [f'distance {row[0]}', f'feasible {row[1]}'] for (i, j), row in rows.items() if j == destination}
                self.assertEqual(drawn.arrows(), sorted(arrows), (name, destination))
                self.assertEqual(drawn.states(), states, (name, destination))
                self.assertEqual(drawn.distances(), {**said, destination: ['destination']}, (name, destination))

    def test_the_picture_in_docs_is_the_last_one(self):
        done = draw(os.path.join(ROOT, 'examples', 'nine-hubs.script'), '-d', '6')
        with open(os.path.join(ROOT, 'docs', 'nine-hubs.svg'), 'rb') as file:
            self.assertEqual(done.stdout, file.read())


class Scripts(unittest.TestCase):
    """Scripts with something particular in them."""

    def test_costs_follow_the_accepted_commands(self):
        script = (b'units 3\nup 0 1 5 7\nup 1 2 1 2\nup 0 1 9 9\ncost 1 0 65535\ncost 0 2 4\n'
                  b'down 2 1\nup 2 0 3 4\ncost 0 2 0\n')
        drawn = Drawn(script, 0)
        self.assertEqual(drawn.links(), [(0, 1), (0, 2)])
        self.assertEqual(drawn.costs(), {(0, 1): '5', (1, 0): '65535', (2, 0): '3', (0, 2): '4'})

    def test_the_last_good_units_counts(self):
        script = b'units 3\nup 0 1 5 7\nup 1 2 5 7\nshow\nunits 2\nup 0 1 1 2\nunits 17\n'
        drawn = Drawn(script, 1)
        self.assertEqual(drawn.links(), [(0, 1)])
        self.assertEqual(drawn.costs(), {(0, 1): '1', (1, 0): '2'})
        self.assertEqual(drawn.arrows(), [(0, 1)])

    def test_bad_lines_and_shows_between(self):
        script = (b'show\n\nup 0 1 1 1\nhello\nunits 2\r\nunits  2\nunits 2\nshow\nshow \n\xff\xfe\nup 0 1 05 7\n'
                  b'up 0 1 5 7\n' + b'9' * 1000 + b'\nshow\ndeliver 0 1\ndeliver 0 1\n\x00\n')
        drawn = Drawn(script, 0)
        self.assertEqual(drawn.costs(), {(0, 1): '5', (1, 0): '7'})
        self.assertEqual(drawn.arrows(), [(1, 0)])

    def test_no_last_newline(self):
        self.assertEqual(Drawn(b'units 2\nup 0 1 5 7', 0).links(), [(0, 1)])
        self.assertEqual(Drawn(b'units 2\nup 0 1 5 7\nshow', 0).links(), [(0, 1)])

    def test_fresh_network(self):
        drawn = Drawn(f'units {UNITS}\n'.encode(), UNITS - 1)
        self.assertEqual((drawn.links(), drawn.arrows()), ([], []))
        self.assertEqual(drawn.states(), {i: False for i in range(UNITS)})
        self.assertEqual(drawn.distances()[0], ['distance -', 'feasible -'])

    def test_names_with_marks_of_xml(self):
        with tempfile.TemporaryDirectory() as folder:
            name = os.path.join(folder, 'a<b>&"c".script')
            with open(name, 'wb') as file:
                file.write(b'units 2\n')
            svg = ElementTree.fromstring(draw(name).stdout)
            self.assertEqual(svg.find(SVG + 'title').text, 'a<b>&"c".script: successors and distances to unit 0')

    def test_output_file(self):
        with tempfile.TemporaryDirectory() as folder:
            name = os.path.join(folder, 'out.svg')
            done = draw('-', '-o', name, script=b'units 2\n')
            self.assertEqual((done.returncode, done.stdout, done.stderr), (0, b'', b''))
            self.assertEqual(ElementTree.parse(name).getroot().tag, SVG + 'svg')


class Messages(unittest.TestCase):
    """How many messages are under way, and delivering them."""

    def test_counted_as_each_queue_alone_says(self):
        hubs = example('nine-hubs.script').splitlines(keepends=True)
        scripts = [(b''.join(hubs[:end]), 9) for end in (12, 13, 60, 194, 220, 302, len(hubs))]
        scripts += [(lives(seed, count, 40), count) for seed in range(4) for count in (3, 5)] + [(mesh(4), 4)]
        counts = set()
        for script, count in scripts:
            expected = queued(script, count)
            counts.add(expected)
            self.assertEqual(Drawn(script, 0).messages(), expected, script)
        self.assertGreater(len(counts), 5)

    def test_a_network_before_does_not_count(self):
        before = b'up 0 1 1 1\nshow\nunits 3\nup 0 1 1 1\nup 1 2 1 1\n'
        script = b'units 2\nup 0 1 5 7\ndeliver 0 1\nshow\nunits 1\n'
        self.assertEqual(queued(script, 2), 2)
        self.assertEqual(Drawn(before + script, 0).messages(), 2)

    def test_one_and_none(self):
        self.assertRegex(Drawn(b'units 2\nup 0 1 5 7\n', 0).caption(), '; 1 link up; 2 messages under way$')
        self.assertRegex(Drawn(b'units 2\nup 0 1 5 7\ndown 0 1\n', 0).caption(), '; 0 links up; no message under way$')
        settled = b'units 2\nup 0 1 5 7\n' + b'deliver 0 1\ndeliver 1 0\n' * 4 + b'cost 0 1 9\n'
        self.assertRegex(Drawn(settled, 0).caption(), '; 1 link up; 1 message under way$')

    def runs(self, *arguments):
        """How often the program is run, and the caption."""
        with tempfile.TemporaryDirectory() as folder:
            log = os.path.join(folder, 'log')
            program = write(folder, 'program', f'#!/bin/sh\necho >>{log}\nexec {PROGRAM}\n'.encode(), 0o755)
            caption = Drawn(example('nine-hubs.script'), 6, '-p', program, *arguments).caption()
            return os.path.getsize(log), caption

    def test_not_counted_on_request(self):
        self.assertEqual(self.runs('--no-count'), (1, '9 units, 4 of them ACTIVE; 11 links up'))
        self.assertEqual(self.runs(), (3, '9 units, 4 of them ACTIVE; 11 links up; 11 messages under way'))

    def test_settled_is_what_deliveries_lead_to(self):
        for script, count in [(example('nine-hubs.script'), 9), (mesh(6), 6), (lives(7, 5, 60), 5)]:
            drawn = Drawn(script, 1, '--settle')
            said = re.search('; no message under way after ([0-9]+) more deliveries$', drawn.caption())
            every = ''.join(f'deliver {a} {b}\n' for a in range(count) for b in range(count) if a != b).encode() * 60
            after = answers(script + every)[-every.count(b'\n'):]
            self.assertEqual(int(said[1]), after.count('ok'))
            states, rows = shown(script + every, count)
            self.assertEqual(drawn.states(), {i: False for i in range(count)})
            self.assertEqual(drawn.states(), states)
            self.assertEqual(drawn.distances()[0], [f'distance {rows[0, 1][0]}', f'feasible {rows[0, 1][1]}'])
            self.assertEqual(drawn.arrows(), sorted((i, int(k)) for i in range(count) if i != 1
                                                    for k in rows[i, 1][2].split(',') if k != '-'))

    def test_settled_before(self):
        for script in (example('triangle.script'), b'units 4\n'):
            self.assertRegex(Drawn(script, 0, '--settle').caption(), '; no message under way$')

    def test_settling_warns_of_no_delivery_of_its_own(self):
        done = draw('-', '--settle', '--strict', script=mesh(3))
        self.assertEqual((done.returncode, done.stderr), (0, b''))

    def test_settling_needs_many_rounds(self):
        """Quiet only after 60 rounds, which is more than are tried at first."""
        text = '''#!/usr/bin/awk -f
            /^show$/ { print "unit 0 passive\\n0 1 5 5 1\\nunit 1 passive\\n1 0 7 7 0"; next }
            /^deliver/ && ++done > 120 { print "refused 8"; next }
            { print "ok" }
        '''
        with tempfile.TemporaryDirectory() as folder:
            program = write(folder, 'program', text.encode(), 0o755)
            drawn = Drawn(b'units 2\nup 0 1 5 7\n', 0, '--settle', '-p', program)
            self.assertRegex(drawn.caption(), '; no message under way after 120 more deliveries$')


class NoWay(unittest.TestCase):
    """Units from which no arrows lead to the destination."""

    def marked(self, drawn):
        """The units that are marked, which is by dashes and by words."""
        dashed = {int(it.get('data-unit')) for it in drawn.every('unit') if it.get('stroke-dasharray')}
        self.assertEqual(drawn.beside('no-way-words'), {i: ['no way'] for i in dashed})
        self.assertIn('no way: no arrows lead from the unit to unit', ' '.join(it.text for it in drawn.every('legend')))
        return dashed

    def test_nine_hubs(self):
        """Tractors 5 and 7 still trust hub 2, which has lost the destination; harvester 4 trusts tractor 7."""
        self.assertEqual(self.marked(Drawn(example('nine-hubs.script'), 6)), {2, 4, 5, 7})
        self.assertEqual(self.marked(Drawn(example('nine-hubs.script'), 6, '--settle')), set())

    def test_all_of_a_fresh_network(self):
        self.assertEqual(self.marked(Drawn(b'units 5\n', 2)), {0, 1, 3, 4})

    def test_as_walks_along_arrows_say(self):
        for seed in range(6):
            for destination in range(2):
                drawn = Drawn(lives(seed, 6, 50), destination, '--no-count')
                arrows = set(drawn.arrows())
                for _ in range(6):
                    arrows |= {(a, d) for a, b in arrows for c, d in arrows if b == c}
                expected = {i for i in range(6) if i != destination and (i, destination) not in arrows}
                self.assertEqual(self.marked(drawn), expected, (seed, destination))


def rotated(x, y, half_width, half_height, degrees=0):
    """The corners of a box around a point."""
    cos, sin = math.cos(math.radians(degrees)), math.sin(math.radians(degrees))
    around = [(-half_width, -half_height), (half_width, -half_height), (half_width, half_height), (-half_width, half_height)]
    return [(x + u * cos - v * sin, y + u * sin + v * cos) for u, v in around]


def apart(one, other):
    """Whether two convex shapes have nothing in common: a line along an edge of one of them lies between them."""
    for shape in (one, other):
        for (x, y), (next_x, next_y) in zip(shape, shape[1:] + shape[:1]):
            first, second = ([(next_x - x) * (v - y) - (next_y - y) * (u - x) for u, v in it] for it in (one, other))
            if max(first) < min(second) or max(second) < min(first):
                return True
    return False


class Shapes:
    """What a picture's parts cover, from what the SVG says."""

    def __init__(self, drawn):
        self.links = {(int(it.get('data-a')), int(it.get('data-b'))):
                      [tuple(float(it.get(key + end)) for key in 'xy') for end in '12'] for it in drawn.every('link')}
        self.units = {int(it.get('data-unit')): self.unit(it) for it in drawn.every('unit')}
        self.heads = [[tuple(map(float, it)) for it in re.findall('([-0-9.]+) ([-0-9.]+)', path.get('d'))[2:5]]
                      for path in drawn.every('successor')]
        self.words = [self.text(it) for kind in ('distance', 'name', 'no-way-words') for it in drawn.every(kind)]
        self.costs = {(int(it.get('data-from')), int(it.get('data-to'))): self.text(it) for it in drawn.every('cost')}

    def unit(self, it):
        if it.get('r'):
            return rotated(float(it.get('cx')), float(it.get('cy')), 20, 20)
        return rotated(float(it.get('x')) + 20, float(it.get('y')) + 20, 20, 20)

    def text(self, it):
        x, y, size = float(it.get('x')), float(it.get('y')), float(it.get('font-size'))
        half = len(it.text) * size * 0.64 / 2
        x += {'start': half, 'middle': 0, 'end': -half}[it.get('text-anchor')]
        degrees = re.match(r'rotate\((\S+) ', it.get('transform', 'rotate(0 '))
        return rotated(x, y, half, size * 0.37, float(degrees[1]))

    def covered(self):
        """What each cost covers, besides its own link."""
        costs = list(self.costs.items())
        for at, ((a, b), cost) in enumerate(costs):
            others = [(f'link {link}', it) for link, it in self.links.items() if link != (min(a, b), max(a, b))]
            others += [(f'unit {unit}', it) for unit, it in self.units.items()] + [('words', it) for it in self.words]
            others += [('an arrow', it) for it in self.heads] + [(f'cost {both}', it) for both, it in costs[:at]]
            yield from (f'cost {a, b} covers {name}' for name, it in others if not apart(cost, it))

    def strayed(self):
        """Costs that are not at their link, or not in the half of their unit."""
        for (a, b), corners in self.costs.items():
            (xa, ya), (xb, yb), (x, y) = (
                [sum(it) / 4 for it in zip(*shape)] for shape in (self.units[a], self.units[b], corners))
            aside = abs((xb - xa) * (y - ya) - (yb - ya) * (x - xa)) / math.dist((xa, ya), (xb, yb))
            if aside > 12 or math.dist((x, y), (xa, ya)) > math.dist((x, y), (xb, yb)):
                yield a, b


class Legible(unittest.TestCase):
    """No cost covers another link, a unit, words, an arrow's head or another cost; and all is in the picture."""

    def check(self, drawn, told):
        shapes = Shapes(drawn)
        self.assertEqual(list(shapes.covered()), [], told)
        self.assertEqual(list(shapes.strayed()), [], told)
        width, height = (float(it) for it in drawn.svg.get('viewBox').split()[2:])
        for it in drawn.svg.iter(SVG + 'text'):
            reach = len(it.text) * float(it.get('font-size')) * 0.62
            left = {'start': 0, 'middle': reach / 2, 'end': reach}[it.get('text-anchor', 'start')]
            self.assertTrue(0 <= float(it.get('x')) - left and float(it.get('x')) - left + reach <= width, it.text)
            self.assertTrue(8 <= float(it.get('y')) <= height - 8, it.text)
        words = shapes.words
        self.assertTrue(all(apart(it, unit) for it in words for unit in shapes.units.values()), told)

    def test_the_test_sees_what_is_covered(self):
        line = [(0, 0), (100, 100)]
        self.assertFalse(apart(rotated(50, 40, 12, 5), line))
        self.assertFalse(apart(rotated(50, 50, 1, 1), line))
        self.assertTrue(apart(rotated(50, 30, 12, 5), line))
        self.assertTrue(apart(rotated(56, 44, 40, 5, 45), line))
        self.assertFalse(apart(rotated(53, 47, 40, 5, 45), line))
        self.assertTrue(apart(rotated(110, 110, 5, 5), line))

    def test_examples(self):
        for name in ('nine-hubs.script', 'triangle.script', 'slip.script'):
            script = example(name)
            for destination in range(int(script.split()[1])):
                self.check(Drawn(script, destination, '--no-count'), (name, destination))

    def test_every_mesh_up_to_eight(self):
        for count in range(2, 9):
            for least in (1, 10000):
                self.check(Drawn(mesh(count, least), count - 1, '--no-count'), (count, least))

    def test_networks_by_lot(self):
        for seed in range(12):
            count = 5 + seed
            self.check(Drawn(lives(seed, count, 60), seed % count, '--no-count'), seed)

    def test_the_largest_mesh(self):
        for least in (1, 10000):
            drawn = Drawn(mesh(UNITS, least), 5, '--no-count')
            self.check(drawn, least)
        states, rows = shown(mesh(UNITS), UNITS)
        self.assertEqual(len(drawn.links()), UNITS * (UNITS - 1) // 2)
        self.assertEqual((drawn.costs()[3, 12], drawn.costs()[12, 3]), ('10312', '11203'))
        self.assertEqual(drawn.states(), states)
        arrows = [(i, int(k)) for i in range(UNITS) if i != 5 for k in rows[i, 5][2].split(',') if k != '-']
        self.assertEqual(drawn.arrows(), sorted(arrows))

    def test_names_cover_nothing(self):
        long = 'Harvester of the northern field, red one'
        with tempfile.TemporaryDirectory() as folder:
            for script, count in [(example('nine-hubs.script'), 9), (mesh(8), 8), (mesh(UNITS), UNITS), (b'units 12\n', 12)]:
                lines = ''.join(f'{i} {long[:40 if i % 3 else 9]}\n' for i in range(count))
                names = write(folder, 'names', lines.encode())
                self.check(Drawn(script, 6, '--no-count', '--names', names), count)


class Names(unittest.TestCase):
    """Names for units, from a file."""

    def named(self, names, script=b'units 3\nup 0 1 5 7\n', destination=1):
        with tempfile.TemporaryDirectory() as folder:
            return Drawn(script, destination, '--names', write(folder, 'names', names))

    def test_names_stand_at_their_units(self):
        drawn = self.named('2 Straße & <Hof> "Süd"\n0 the  office\n'.encode())
        self.assertEqual(drawn.beside('name'), {0: ['the  office'], 2: ['Straße & <Hof> "Süd"']})
        self.assertEqual(drawn.distances()[1], ['destination'])
        self.assertEqual(drawn.svg.find(SVG + 'title').text, 'standard input: successors and distances to unit 1')

    def test_the_name_of_the_destination_is_in_the_title(self):
        drawn = self.named('1 蜂\n'.encode())
        self.assertEqual(drawn.every('title')[0].text, 'standard input: successors and distances to unit 1 (蜂)')

    def test_marks_and_ends_of_lines(self):
        drawn = self.named(b'\xef\xbb\xbf0 zero\r\n1 one\x01\x1b[31m\r\n2 ' + b'x' * 60)
        self.assertEqual(drawn.beside('name'), {0: ['zero'], 1: ['one??[31m'], 2: ['x' * 38 + '..']})

    def test_no_names(self):
        self.assertEqual(self.named(b'').beside('name'), {})

    def test_bad_lines(self):
        form = 'not the number of a unit, a space and a name'
        for line, said in [(b'', form), (b'one two', form), (b'0', form), (b'0 ', form), (b'01 a', form), (b'-1 a', form),
                           (b'0\ta', form), (b'1 \xff', 'not UTF-8'), (b'3 c', '3 is no unit: the units are 0 to 2'),
                           (b'2 again', 'unit 2 has a name already, from line 1')]:
            with tempfile.TemporaryDirectory() as folder:
                names, out = write(folder, 'names', b'2 two\n' + line + b'\n'), os.path.join(folder, 'out.svg')
                done = draw('-', '-o', out, '--names', names, script=b'units 3\n')
                self.assertEqual((done.returncode, done.stderr.decode()), (1, f'draw: {names}, line 2: {said}\n'))
                self.assertFalse(os.path.exists(out))

    def test_no_file(self):
        done = draw('-', '--names', 'nowhere', script=b'units 3\n')
        self.assertEqual((done.returncode, done.stderr), (1, b'draw: no such file: nowhere\n'))


class Warnings(unittest.TestCase):
    """Lines that were not done are told, and the picture is drawn."""

    SCRIPT = (b'show\nunits 17\nunits 3\nup 0 1 5 7\nup 1 0 5 7\n\nup 0 3 1 1\ncost 0 1 0\ncost 1 2 1\ndeliver 0 1\nshow\n'
              b'deliver 0 1\nhello\ndown 0 1\r\n\xff\t\n' + b'7' * 50 + b'\n')
    SAID = [
        'line 1, show, was refused with 2 (there is no network yet)',
        'line 2, units 17, was refused with 1 (the count is not 2 to 16)',
        'line 5, up 1 0 5 7, was refused with 5 (the link is up already)',
        'line 6 is a bad line (it is empty)',
        'line 7, up 0 3 1 1, was refused with 3 (no unit, or the same unit twice)',
        'line 8, cost 0 1 0, was refused with 4 (the cost is not 1 to 65535)',
        'line 9, cost 1 2 1, was refused with 6 (the link is not up)',
        'line 12, deliver 0 1, was refused with 8 (the queue is empty)',
        'line 13, hello, is a bad line (no command)',
        r'line 14, down 0 1\r, is a bad line (a carriage return ends it)',
        r'line 15, \xff\t, is a bad line (no command)',
        'line 16, ' + '7' * 38 + '.., is a bad line (no command)',
        '12 of 16 lines were not done: 7 refused, 5 bad',
    ]

    def test_all_are_told_with_their_numbers(self):
        done = draw('-', script=self.SCRIPT)
        self.assertEqual(done.stderr.decode().splitlines(), ['draw: ' + it for it in self.SAID])
        self.assertEqual(done.returncode, 0)
        self.assertEqual(ElementTree.fromstring(done.stdout).tag, SVG + 'svg')

    def test_many_are_all_told(self):
        done = draw('-', script=b'units 2\n' + b'deliver 0 1\n' * 1000)
        said = done.stderr.decode().splitlines()
        self.assertEqual(len(said), 1001)
        self.assertEqual(said[999], 'draw: line 1001, deliver 0 1, was refused with 6 (the link is not up)')
        self.assertEqual(said[1000], 'draw: 1000 of 1001 lines were not done: 1000 refused, 0 bad')

    def test_status_on_request(self):
        for script, status, count in [(self.SCRIPT, 2, 13), (b'units 2\nup 0 1 5 7\nshow\n', 0, 0), (b'units 2\nx', 2, 1),
                                      (b'units 2\nup 0 1 5 7\ndown 0 1\ndeliver 0 1\n', 2, 1)]:
            plain, strict = draw('-', script=script), draw('-', '--strict', script=script)
            self.assertEqual((plain.returncode, strict.returncode), (0, status), script)
            self.assertEqual((plain.stdout, plain.stderr), (strict.stdout, strict.stderr), script)
            self.assertTrue(strict.stdout.endswith(b'</svg>\n'))
            self.assertEqual(len(strict.stderr.splitlines()), count, script)

    def test_trouble_comes_before_strictness(self):
        done = draw('-', '--strict', '-d', '9', script=self.SCRIPT)
        self.assertEqual((done.returncode, done.stdout), (1, b''))

    def test_examples_have_none(self):
        for name in ('nine-hubs.script', 'triangle.script', 'slip.script'):
            done = draw(os.path.join(ROOT, 'examples', name), '--strict')
            self.assertEqual((done.returncode, done.stderr), (0, b''), name)


class Troubles(unittest.TestCase):
    """What can't be drawn is said in one line, and nothing is written."""

    def refuses(self, said, *arguments, script=b'', before=''):
        with tempfile.TemporaryDirectory() as folder:
            name = os.path.join(folder, 'out.svg')
            done = draw(*arguments, '-o', name, script=script)
            self.assertEqual((done.returncode, done.stdout), (1, b''))
            self.assertEqual(done.stderr.decode(), f'{before}draw: {said}\n')
            self.assertEqual(os.listdir(folder), [])

    def program(self, folder, text):
        return write(folder, 'program', f'#!/bin/sh\ncat >/dev/null\n{text}'.encode(), 0o755)

    def test_no_such_file(self):
        self.refuses('no such file: nowhere.script', 'nowhere.script')

    def test_a_folder(self):
        self.refuses(f'{ROOT}: Is a directory', ROOT)

    def test_no_standard_input(self):
        done = subprocess.run(['sh', '-c', f'{DRAW} - <&-'], capture_output=True)
        self.assertEqual((done.returncode, done.stderr), (1, b'draw: standard input is closed\n'))

    def test_no_network(self):
        none = 'no network: the script has no units line that was accepted'
        self.refuses(none, '-', script=b'')
        self.refuses(none, '-', script=b'units two\n', before='draw: line 1, units two, is a bad line (no command)\n')
        refused = 'draw: line 1, units 17, was refused with 1 (the count is not 2 to 16)\n'
        self.refuses(none, '-', script=b'units 17', before=refused)

    def test_destination_is_no_unit(self):
        self.refuses('destination 2 is no unit: the units are 0 to 1', '-', '-d', '2', script=b'units 2\n')
        self.refuses('destination -1 is no unit: the units are 0 to 1', '-', '-d', '-1', script=b'units 2\n')

    def test_no_such_program(self):
        self.refuses('./nothing: No such file or directory', '-', '-p', './nothing', script=b'units 2\n')

    def test_a_program_that_fails(self):
        with tempfile.TemporaryDirectory() as folder:
            name = self.program(folder, 'echo broken >&2\nexit 3\n')
            self.refuses(f'{name} ended with status 3', '-', '-p', name, script=b'units 2\n', before='broken\n')

    def test_another_program(self):
        odd = ['true', 'echo ok', 'echo ok; echo ok',
               'printf "ok\\nunit 0 passive\\n0 1 - - -\\nunit 0 passive\\n0 1 - - -\\n"',
               'printf "ok\\nunit 0 passive\\n0 1 - - -\\nunit 1 passive\\n1 0 - - -\\nok\\n"']
        with tempfile.TemporaryDirectory() as folder:
            for text in odd:
                name = self.program(folder, text + '\n')
                said = f'{name} gave answers that are not those of the script program'
                self.refuses(said, '-', '-p', name, script=b'units 2\n')

    def test_a_program_whose_messages_never_cease(self):
        text = "awk '/show/ { print \"unit 0 active\\n0 1 5 5 1\\nunit 1 active\\n1 0 7 7 0\"; next } { print \"ok\" }'\n"
        with tempfile.TemporaryDirectory() as folder:
            name = write(folder, 'program', f'#!/bin/sh\n{text}'.encode(), 0o755)
            self.refuses('messages are still under way after 4000 rounds of deliveries over all links', '-', '--settle',
                         '-p', name, script=b'units 2\nup 0 1 5 7\n')
            self.refuses(f'{name} gave answers that are not those of the script program', '-',
                         '-p', name, script=b'units 2\nup 0 1 5 7\n')

    def test_options(self):
        for said, arguments in [("argument -d: invalid int value: 'x'", ['-', '-d', 'x']),
                                ('the following arguments are required: SCRIPT', []),
                                ('unrecognized arguments: --hurry', ['-', '--hurry'])]:
            self.refuses(f'{said}; --help tells more', *arguments)


class Output(unittest.TestCase):
    """Where the picture goes. What was there stays whole when the new one can't be written."""

    def setUp(self):
        folder = tempfile.TemporaryDirectory()
        self.addCleanup(folder.cleanup)
        self.folder = folder.name

    def refused(self, name, said, **options):
        done = subprocess.run([DRAW, '-', '-o', name], input=b'units 2\n', capture_output=True, **options)
        self.assertEqual((done.returncode, done.stdout, done.stderr.decode()), (1, b'', f'draw: {name}: {said}\n'))

    def test_places_that_cannot_be_written(self):
        self.refused(os.path.join(self.folder, 'nowhere', 'out.svg'), 'No such file or directory')
        self.refused(self.folder, 'Is a directory')
        self.refused('/dev/full', 'No space left on device')

    def test_a_failed_write_leaves_the_old_file(self):
        name = write(self.folder, 'out.svg', b'old')
        self.refused(name, 'File too large', preexec_fn=lambda: resource.setrlimit(resource.RLIMIT_FSIZE, (1000, 1000)))
        self.assertEqual(os.listdir(self.folder), ['out.svg'])
        with open(name, 'rb') as file:
            self.assertEqual(file.read(), b'old')

    @unittest.skipIf(os.geteuid() == 0, 'root may write everything')
    def test_a_file_that_may_not_be_written(self):
        self.refused(write(self.folder, 'out.svg', b'old', 0o444), 'Permission denied')

    def test_the_old_file_is_replaced(self):
        name = write(self.folder, 'out.svg', b'old', 0o640)
        link = os.path.join(self.folder, 'link.svg')
        os.symlink('out.svg', link)
        self.assertEqual(draw('-', '-o', link, script=b'units 2\n').returncode, 0)
        self.assertEqual(sorted(os.listdir(self.folder)), ['link.svg', 'out.svg'])
        self.assertTrue(os.path.islink(link))
        self.assertEqual(ElementTree.parse(name).getroot().tag, SVG + 'svg')
        self.assertEqual(stat.S_IMODE(os.stat(name).st_mode), 0o640)

    def test_devices_stay(self):
        self.assertEqual(draw('-', '-o', os.devnull, script=b'units 2\n').returncode, 0)
        self.assertTrue(stat.S_ISCHR(os.stat(os.devnull).st_mode))

    def test_standard_output_that_is_full_or_closed(self):
        with open('/dev/full', 'wb') as full:
            done = subprocess.run([DRAW, '-'], input=b'units 2\n', stdout=full, stderr=subprocess.PIPE)
        self.assertEqual((done.returncode, done.stderr), (1, b'draw: standard output: No space left on device\n'))
        reading, writing = os.pipe()
        os.close(reading)
        done = subprocess.run([DRAW, '-'], input=b'units 2\n', stdout=writing, stderr=subprocess.PIPE)
        os.close(writing)
        self.assertEqual((done.returncode, done.stderr), (1, b'draw: standard output: Broken pipe\n'))

    def test_what_the_program_says_comes_at_once(self):
        """As the lines of the first build do. The program ends only after its words were read here."""
        go = os.path.join(self.folder, 'go')
        os.mkfifo(go)
        text = f'#!/bin/sh\necho proving and building >&2\nread line <{go}\nexec {PROGRAM}\n'
        program = write(self.folder, 'program', text.encode(), 0o755)
        script = write(self.folder, 'a.script', b'units 2\n')
        command = [DRAW, script, '-p', program, '--no-count']
        running = subprocess.Popen(command, stdout=subprocess.PIPE, stderr=subprocess.PIPE)
        ready = select.select([running.stderr], [], [], 30)[0]
        with open(go, 'w') as file:
            file.write('go\n')
        svg, said = running.communicate(timeout=60)
        self.assertTrue(ready, 'nothing was said while the program ran')
        self.assertEqual((running.returncode, said), (0, b'proving and building\n'))
        self.assertTrue(svg.endswith(b'</svg>\n'))


if __name__ == '__main__':
    unittest.main()
