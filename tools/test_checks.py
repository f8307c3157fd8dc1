#!/usr/bin/env python3
"""Tests of tools/check-contracts and tools/check-docs, on small repositories made for them."""
import os
import subprocess
import tempfile
import unittest

TOOLS = os.path.dirname(os.path.realpath(__file__))

GOOD = {
    'crates.txt': '# A comment.\nlow:\nhigh: low\n',
    'crates/low/src/lib.rt': '// Definitions only.\n',
    'crates/high/src/lib.rt': '''pub mod calls;

#[unsafe(no_mangle)]
pub extern "C" fn outside(table: &[u8]) -> u32
    ensures { result ≡ 1 }
{
    1
}
''',
    'crates/high/src/calls.rt': '''fn own(x: u32) -> u32
    requires { x ≤ 1 }
{
    x
}

pub(crate) fn near(x: u32) -> u32
    requires { x ≤ 1 }
    ensures { result ≡ x }
{
    x
}

pub fn up(
    table: &mut [u32],
) -> u32
    ensures answer { result ≡ 1 }
    ensures table { table.new ≡ [] }
{
    1
}

pub fn down() -> u32
    ensures { result ≡ 1 }
{
    1
}
''',
    'crates/high/proofs/Lib.antt': '-- Laws.\npub mod OneOutput\n',
    'crates/high/proofs/OneOutput.antt': '''use Rattle.ground.specs.Unique.{OneOutput}
use Rattle.high.specs.contracts as said
use Rattle.high.proofs.calls
use Rattle.high.proofs.outside

pub outside_once : OneOutput said.outside.ended outside.Reads.Learnt
outside_once _ _ _ _ p q i = (agree p q i, _)

pub calls_up_once : OneOutput said.calls.up.ended calls.up.Reads.Learnt
calls_up_once _ _ _ _ p q i = (agree p.0 q.0 i, (agree p.1 q.1 i, _))

pub calls_down_once : OneOutput said.calls.down.ended calls.down.Reads.Learnt
calls_down_once _ _ _ _ p q i = (agree p q i, _)
''',
    'crates/low/must-fail/one.edit': '',
    'crates/low/must-fail/two.edit': '',
    'crates/high/must-fail/three.edit': '',
    'docs/CONTRACTS.md': '''# Contracts

## low

Must-fail edits (`crates/low/must-fail/`): `one`,
`two`.

## high

| Function | Answer |
|---|---|
| `calls::up`, `down` | `one` |
| `outside` | `four` |

Definitions: `five`. Must-fail edits (`crates/high/must-fail/`):

| Edit | Wrong answer |
|---|---|
| `three` | `six` |

## Another matter

`seven`
''',
}


class Repository(unittest.TestCase):
    """A repository of files, each given by name and text."""

    def setUp(self):
        held = tempfile.TemporaryDirectory()
        self.addCleanup(held.cleanup)
        self.root = held.name

    def put(self, files):
        for name, text in files.items():
            path = os.path.join(self.root, name)
            os.makedirs(os.path.dirname(path), exist_ok=True)
            with open(path, 'w', encoding='utf-8') as file:
                file.write(text)

    def run_tool(self, tool, *arguments):
        done = subprocess.run([os.path.join(TOOLS, tool), *arguments], capture_output=True)
        return done.returncode, done.stdout.decode().splitlines(), done.stderr.decode()


HANDED_ON = {
    'crates.txt': GOOD['crates.txt'] + 'high_c staticlib: high low\n',
    'crates/high_c/src/lib.rt': '''pub mod calls;

#[unsafe(no_mangle)]
pub extern "C" fn outside(table: &[u8]) -> u32
    ensures { result ≡ 1 }
{
    high::outside(table)
}
''',
    'crates/high_c/src/calls.rt': '''use high::calls;

#[unsafe(no_mangle)]
pub extern "C" fn up(table: &mut [u32]) -> u32
    ensures answer { result ≡ 1 }
    ensures table { table.new ≡ [] }
{
    calls::up(table)
}

#[unsafe(no_mangle)]
pub extern "C" fn down() -> u32
    ensures { result ≡ 1 }
{
    calls::down()
}
''',
}


GENERIC = {
    'crates/high/src/calls.rt': GOOD['crates/high/src/calls.rt'] + """
impl Link {
    pub fn number(self) -> u32
        ensures { result ≡ 1 }
    {
        1
    }
}

impl From<Link> for u32 {
    fn from(link: Link) -> u32 {
        1
    }
}

pub fn lay<T: Copy>(to: &mut [T])
    ensures { to.new ≡ to.old }
{
}
""",
    'crates/high/proofs/OneOutput.antt': GOOD['crates/high/proofs/OneOutput.antt'] + """
pub calls_Link_number_once : OneOutput said.calls.Link.number.ended calls.Link.number.Reads.Learnt
calls_Link_number_once _ _ _ _ p q i = (agree p q i, _)

module _ (T : RattleType) (laws : Laws T) (clone : Clone.Ghosts T.Denot) where
  pub calls_lay_once : OneOutput (said.calls.lay.ended T clone)
      (calls.lay.Reads.Learnt T laws clone)
  calls_lay_once _ _ _ _ p q i = (_, (agree p q i, _))
""",
    'docs/CONTRACTS.md': GOOD['docs/CONTRACTS.md'].replace('`outside`', '`outside`, `calls::Link::number`, `calls::lay`'),
}


class Contracts(Repository):
    def finds(self, name, old, new, *wrong):
        """What is found when one text is exchanged for another in a file of the good repository."""
        self.assertEqual(GOOD[name].count(old), 1)
        self.put({**GOOD, name: GOOD[name].replace(old, new)})
        status, lines, _ = self.run_tool('check-contracts', self.root)
        self.assertEqual(lines[:-1], list(wrong))
        self.assertEqual(status, 1 if wrong else 0)

    def finds_of_laws(self, old, new, wrong=None):
        """The same in the laws of the repository with a generic function; whether what its law says is wrong, and on which line."""
        name = 'crates/high/proofs/OneOutput.antt'
        self.assertEqual(GENERIC[name].count(old), 1)
        self.put({**GOOD, **GENERIC, name: GENERIC[name].replace(old, new)})
        status, lines, _ = self.run_tool('check-contracts', self.root)
        said = f'high: calls_lay_once does not say OneOutput said.calls.lay.ended calls.lay.Reads.Learnt ({name}:{wrong})'
        self.assertEqual((status, lines[:-1]), (1, [said]) if wrong else (0, []))

    def test_good(self):
        self.put(GOOD)
        seen = 'check-contracts: 2 crates, 3 public functions, 3 must-fail edits, 0 wrong'
        self.assertEqual(self.run_tool('check-contracts', self.root), (0, [seen], ''))

    def test_a_static_library(self):
        self.put({**GOOD, **HANDED_ON})
        seen = 'check-contracts: 3 crates, 3 public functions, 3 must-fail edits, 0 wrong'
        self.assertEqual(self.run_tool('check-contracts', self.root), (0, [seen], ''))
        name = 'crates/high_c/src/calls.rt'
        for old, new, wrong in (
                ('result ≡ 1 }\n    ensures table', 'result ≡ 2 }\n    ensures table',
                 ['high_c: calls::up does not say what that of high says (crates/high_c/src/calls.rt:4)']),
                ('    ensures table { table.new ≡ [] }\n', '',
                 ['high_c: calls::up does not say what that of high says (crates/high_c/src/calls.rt:4)']),
                ('fn down', 'fn under',
                 ['high_c: calls::under is no function of high (crates/high_c/src/calls.rt:12)',
                  'high_c: calls::down of high is not handed on'])):
            self.assertEqual(HANDED_ON[name].count(old), 1)
            self.put({**GOOD, **HANDED_ON, name: HANDED_ON[name].replace(old, new)})
            status, lines, _ = self.run_tool('check-contracts', self.root)
            self.assertEqual((status, lines[:-1]), (1, wrong))

    def test_a_function_without_a_promise(self):
        self.finds('crates/high/src/lib.rt', '    ensures { result ≡ 1 }\n', '',
                   'high: outside has no ensures (crates/high/src/lib.rt:4)')
        self.finds('crates/high/src/lib.rt', '-> u32\n    ensures { result ≡ 1 }\n{', '-> u32 {',
                   'high: outside has no ensures (crates/high/src/lib.rt:4)')
        self.finds('crates/high/src/lib.rt', '    ensures { result', '    // ensures { result',
                   'high: outside has no ensures (crates/high/src/lib.rt:4)')

    def test_a_function_with_a_condition(self):
        self.finds('crates/high/src/lib.rt', '    ensures', '    requires { 0 ≡ 0 }\n    ensures',
                   'high: outside has a requires (crates/high/src/lib.rt:4)')

    def test_a_function_that_is_not_named(self):
        wrong = 'high: function calls::down is not named under ## high in docs/CONTRACTS.md'
        self.finds('docs/CONTRACTS.md', ', `down`', '', wrong)
        self.finds('docs/CONTRACTS.md', '`calls::up`, `down`', '`down`, `calls::up`', wrong,
                   'high: function down is named in docs/CONTRACTS.md and does not exist')

    def test_a_name_without_its_function(self):
        self.finds('docs/CONTRACTS.md', '`outside`', '`outside`, `inside`',
                   'high: function inside is named in docs/CONTRACTS.md and does not exist')

    def test_a_name_twice(self):
        self.finds('docs/CONTRACTS.md', '`outside`', '`outside`, `calls::up`',
                   'high: function calls::up is named twice in docs/CONTRACTS.md')

    def test_a_function_without_its_law(self):
        wrong = 'high: calls::down has no law calls_down_once in proofs/OneOutput.antt (crates/high/src/calls.rt:23)'
        laws = 'crates/high/proofs/OneOutput.antt'
        self.finds(laws, 'pub calls_down_once : OneOutput said.calls.down.ended calls.down.Reads.Learnt\n', '', wrong)
        self.finds(laws, 'pub calls_down_once :', '-- pub calls_down_once :', wrong)
        self.finds(laws, 'pub calls_down_once : OneOutput', 'pub calls_down_once : Another', wrong)

    def test_no_laws(self):
        self.put({name: text for name, text in GOOD.items() if name != 'crates/high/proofs/OneOutput.antt'})
        status, lines, _ = self.run_tool('check-contracts', self.root)
        self.assertEqual((status, lines[:-1]), (1, [
            'high: calls::up has no law calls_up_once in proofs/OneOutput.antt (crates/high/src/calls.rt:14)',
            'high: calls::down has no law calls_down_once in proofs/OneOutput.antt (crates/high/src/calls.rt:23)',
            'high: outside has no law outside_once in proofs/OneOutput.antt (crates/high/src/lib.rt:4)']))

    def test_a_law_of_something_else(self):
        wrong = ('high: calls_down_once does not say OneOutput said.calls.down.ended calls.down.Reads.Learnt'
                 ' (crates/high/proofs/OneOutput.antt:12)')
        for old, new in (('calls.down.Reads.Learnt', 'calls.up.Reads.Learnt'), ('calls.down.ended', 'calls.up.ended'),
                         ('calls.down.Reads.Learnt', '(λ κs call answer exit. Learnt κs call answer exit)')):
            self.finds('crates/high/proofs/OneOutput.antt', old, new, wrong)

    def test_a_method_and_a_generic_function(self):
        self.put({**GOOD, **GENERIC})
        seen = 'check-contracts: 2 crates, 5 public functions, 3 must-fail edits, 0 wrong'
        self.assertEqual(self.run_tool('check-contracts', self.root), (0, [seen], ''))

    def test_a_generic_law_of_something_else(self):
        for old, new in (('Learnt T laws clone', 'Learnt T laws made'), ('said.calls.lay.ended', 'said.calls.up.ended'),
                         ('Learnt T laws clone', 'Learnt T laws T'), ('Learnt T laws clone', 'Learnt T clone')):
            self.finds_of_laws(old, new, 19)

    def test_a_generic_law_under_a_condition(self):
        for new in ('(laws : Laws T) (false : ⊥)', '(laws false : Laws T)', '(laws : Laws T) {false : (x : T) → ⊥}',
                    '(laws : Laws T) (laws : Laws T)', '(laws : Laws T) ((left, right) : ⊥ × ⊥)', '(laws)', ''):
            self.finds_of_laws('(laws : Laws T)', new, 19)
        self.finds_of_laws('(laws : Laws T)', '(laws : Laws T)\n    (false : ⊥)', 20)
        self.finds_of_laws('\n  pub calls_lay_once', '\n mutual\n  pub calls_lay_once', 20)
        self.finds_of_laws('\n  pub calls_lay_once', '\n module _ (false : ⊥) where\n  pub calls_lay_once', 20)

    def test_a_generic_law_under_modules(self):
        self.finds_of_laws('(laws : Laws T)', '{laws : (x : T) → Law x}')
        clone = ' (clone : Clone.Ghosts T.Denot) where'
        self.finds_of_laws(clone, ' where -- More.\n module _\n     ' + clone)

    def test_words_that_are_bound_elsewhere(self):
        module = 'module _ (T : RattleType) (laws : Laws T)'
        other = module + ' where\n  some : Laws T\n  some = laws\n'
        self.finds_of_laws(module, other + module.replace(' (laws : Laws T)', ''), 22)
        self.finds_of_laws(module, other + module)

    def test_a_conditional_law(self):
        laws = 'crates/high/proofs/OneOutput.antt'
        wrong = 'high: calls::down has no law calls_down_once in proofs/OneOutput.antt (crates/high/src/calls.rt:23)'
        for module in ('module _ (false : ⊥) where', 'module _ where', 'mutual'):
            self.finds(laws, 'pub calls_down_once', module + '\n  pub calls_down_once', wrong)

    def test_a_law_without_its_function(self):
        for name in ('calls_own_once', 'calls_near_once', 'calls_down_twice'):
            self.finds('crates/high/proofs/OneOutput.antt', 'pub outside_once', f'pub {name} : OneOutput x y\n\npub outside_once',
                       f'high: {name} is the law of no public function (crates/high/proofs/OneOutput.antt:6)')

    def test_laws_that_mean_something_else(self):
        laws = 'crates/high/proofs/OneOutput.antt'
        for old, new in (('use Rattle.ground.specs.Unique.{OneOutput}', 'use Rattle.high.proofs.Unique.{OneOutput}'),
                         ('use Rattle.high.proofs.calls', 'use Rattle.low.proofs.calls'),
                         ('use Rattle.high.proofs.outside', 'use Rattle.high.proofs.inside as outside')):
            self.finds(laws, old, new, f'high: proofs/OneOutput.antt has no line {old}')
        self.finds('crates/high/proofs/Lib.antt', 'pub mod OneOutput', '-- pub mod OneOutput',
                   'high: proofs/Lib.antt does not list OneOutput')

    def test_edits(self):
        self.finds('docs/CONTRACTS.md', '`two`.', '`too`.',
                   'low: edit two is not named under ## low in docs/CONTRACTS.md',
                   'low: edit too is named in docs/CONTRACTS.md and does not exist')
        self.finds('docs/CONTRACTS.md', '| `three` |', '| `one` |',
                   'high: edit three is not named under ## high in docs/CONTRACTS.md',
                   'high: edit one is named in docs/CONTRACTS.md and does not exist')

    def test_under_another_heading(self):
        self.finds('docs/CONTRACTS.md', '## low', '## The low crate',
                   'low: edit one is not named under ## low in docs/CONTRACTS.md',
                   'low: edit two is not named under ## low in docs/CONTRACTS.md')

    def test_a_crate_that_is_missing(self):
        self.finds('crates.txt', 'high: low\n', 'high: low\nhigher: high\n',
                   'higher: listed in crates.txt and does not exist')

    def test_no_document(self):
        self.put({'crates.txt': 'low:\n', 'crates/low/src/lib.rt': ''})
        status, _, said = self.run_tool('check-contracts', self.root)
        self.assertEqual(status, 1)
        self.assertIn('CONTRACTS.md: No such file or directory', said)


class Documents(Repository):
    def finds(self, text, status, *lines):
        self.put({'it.md': text})
        self.assertEqual(self.run_tool('check-docs', '-r', self.root, 'it.md')[:2], (status, list(lines)))

    def refuses(self, text, said):
        self.put({'it.md': text})
        self.assertEqual(self.run_tool('check-docs', '-r', self.root, 'it.md'), (1, [], f'check-docs: {said}\n'))

    def test_right_output(self):
        self.finds('```console\n$ echo a; echo; echo b >&2\na\n\nb\n$ true\n$ cat it.md | wc -l\n9\n```\n', 0,
                   'check-docs: 3 commands, 0 differ')

    def test_wrong_output(self):
        self.finds('# T\n\n```console\n$ echo a\nb\n$ true\n```\n', 1, 'it.md:4: $ echo a', '--- shown', '+++ printed',
                   '@@ -1 +1 @@', '-b', '+a', 'check-docs: 2 commands, 1 differ')

    def test_more_less_and_no_newline(self):
        for text in ('$ echo a; echo b\na\n', '$ echo a\na\nb\n', '$ printf a\na\n', '$ echo "a "\na\n'):
            self.put({'it.md': f'```console\n{text}```\n'})
            self.assertEqual(self.run_tool('check-docs', '-r', self.root, 'it.md')[0], 1, text)

    def test_other_blocks_are_left_alone(self):
        self.finds('```sh\n$ false\nx\n```\n\n```\n$ echo y\n```\n$ echo z\n', 0, 'check-docs: 0 commands, 0 differ')

    def test_blocks_that_are_wrong(self):
        self.refuses('```console\nhello\n```\n', 'it.md:2: a console block that does not begin with $ ')
        self.refuses('```console\n```\n', 'it.md:2: a console block without a command')
        self.refuses('```console\n$ true\n', 'it.md: the last fence is not closed')

    def test_no_document(self):
        status, _, said = self.run_tool('check-docs', '-r', self.root, 'it.md')
        self.assertEqual(status, 1)
        self.assertIn('it.md: No such file or directory', said)


RULES_HEADINGS = [
    'What is required and the exact rules', "The product's border", 'Numbers', "A unit's tables",
    'Recomputing the tree (001, with ties fixed)', 'One event at one unit (000, steps 1 to 8)', 'Message bytes',
    'The tracer', 'Refusal numbers', 'Figures to check by', 'Easy slips', 'How tight the contracts are',
    'Forms for parts of the code',
]
COLUMNS = '| Document 01 | Definition | In | Shown by |\n|---|---|---|---|\n'
OTHERS = ''.join(f'\n## {heading}\n\n{COLUMNS}| It is said. | - | No rule: a test | |\n' for heading in RULES_HEADINGS[3:])

NAMED = {
    'crates/low/specs/Lib.antt': '-- What is below.\npub mod Limits\n',
    'crates/low/specs/Limits.antt': """-- Rule: the limits.
use Prim.Native.Nat.{ℕ}

-- "Units: 2 to 16"
abbrev pub unitLimit : ℕ
unitLimit = 16

unfoldable pub _gives_ {ℓ} : ℕ → ℕ
pub record Message : Type 0 where
  pub kind : ℕ
pub data Call : Type 0 where
private : ℕ
""",
    'crates/high/specs/Walking.antt': """-- Words: names for walks,
-- which the rules use.
-- Order: `first`, `Step`: how they are found (proofs/Walks.antt, crates/low/proofs/Low.antt).
use Prim.Native.Nat.{ℕ}

pub first : ℕ
pub record Step : Type 0 where
abbrev pub walk : ℕ
""",
    'crates/high/specs/Steps.antt': '-- Order: the steps. proofs/Walks.antt shows\n-- what they come to.\n\npub step : ℕ\n',
    'crates/high/proofs/Walks.antt': 'pub walks : ℕ\n',
    'crates/low/proofs/Low.antt': '  pub lowest-is : ℕ\n',
    'crates/low/must-fail/none_sent.edit': '',
    'crates/high/src/lib.rt': 'pub(crate) fn near() {}\n',
    'tools/draw': '',
    'examples/README.md': 'Nothing.\n',
    'README.md': """See `tools/draw -o x.svg`, docs/RULES.md, [them](examples/README.md#all), `crates/`, `crates/low/specs/Limits.antt` and `walks` of `high/proofs/Walks.antt`.

```sh
`tools/missing`
```

| `low` | `specs/Limits.antt`, `proofs/Low.antt` |
| `high` | `specs/Steps.antt`, `Walking.antt`, `near` of `high/src/lib.rt` |
""",
    'docs/RULES.md': f"""# Rules

## What is required and the exact rules

{COLUMNS}| "Hubs are units." | - | No rule: a word | |

## The product's border

{COLUMNS}| "At that border a table is bytes." | `unitLimit`, `_gives_` | `crates/low/specs/Limits.antt` | edit `none_sent` |
| | `lowest-is` | `crates/low/proofs/Low.antt` | |
| "Not inside: .. timing." | - | `README.md` | |

## Numbers

{COLUMNS}| "Units: 2" | `Message`, `Call` | `crates/low/specs/Limits.antt` | |
""" + OTHERS,
}

PAPER = """# What is required and the exact rules

Hubs are units.

## The product's border

At that border a table is bytes. Not inside: radio, timing.

## Numbers

- Units: 2 to 16.

| No. | Given when |
|---|---|

```
not looked at
```
"""


class Names(Repository):
    """Paths, docs/RULES.md and first lines, on a good repository with one text exchanged for another."""

    def finds(self, name, old, new, *wrong, arguments=()):
        self.assertEqual(NAMED[name].count(old), 1)
        self.put({**NAMED, name: NAMED[name].replace(old, new)})
        status, lines, _ = self.run_tool('check-docs', '--names', '-r', self.root, *arguments)
        self.assertEqual(lines[:-1], list(wrong))
        self.assertEqual(status, 1 if wrong else 0)

    def test_good(self):
        self.put(NAMED)
        seen = 'check-docs: 14 paths, 14 sentences, 9 definitions, 3 first lines, 0 wrong'
        self.assertEqual(self.run_tool('check-docs', '--names', '-r', self.root), (0, [seen], ''))

    def test_commands_are_run_too(self):
        self.put({**NAMED, 'docs/SCRIPT.md': '', 'docs/METER.md': '', 'examples/README.md': '```console\n$ echo a\nb\n```\n'})
        status, lines, _ = self.run_tool('check-docs', '-r', self.root)
        self.assertEqual((status, lines[-1]), (1, 'check-docs: 1 commands, 1 differ'))

    def test_a_path_that_does_not_exist(self):
        self.finds('README.md', '`crates/`', '`crates/lower`', 'README.md:1: crates/lower does not exist')
        self.finds('README.md', 'docs/RULES.md', 'docs/RULE.md', 'README.md:1: docs/RULE.md does not exist')
        self.finds('README.md', '(examples/README.md', '(README.txt', 'README.md:1: README.txt does not exist')
        self.finds('README.md', 'tools/draw', 'tools/paint', 'README.md:1: tools/paint does not exist')
        self.finds('README.md', 'proofs/Low.antt', 'proofs/Walks.antt',
                   'README.md:7: proofs/Walks.antt does not exist (crates/low/proofs/Walks.antt)')
        self.finds('README.md', '`Walking.antt`', '`Limits.antt`',
                   'README.md:8: Limits.antt does not exist (crates/high/specs/Limits.antt)')

    def test_a_name_that_its_file_does_not_define(self):
        self.finds('README.md', '`walks` of', '`walk` of', 'README.md:1: walk is not defined in crates/high/proofs/Walks.antt')
        self.finds('README.md', '`near` of', '`far` of', 'README.md:8: far is not defined in crates/high/src/lib.rt')

    def test_a_rule_that_its_file_does_not_define(self):
        for name in ('unit', 'private', 'Limits', 'Type'):
            self.finds('docs/RULES.md', '`unitLimit`', f'`{name}`',
                       f'docs/RULES.md:13: {name} is not defined in crates/low/specs/Limits.antt')
        self.finds('docs/RULES.md', '`crates/low/proofs/Low.antt`', '`crates/high/proofs/Walks.antt`',
                   'docs/RULES.md:14: lowest-is is not defined in crates/high/proofs/Walks.antt')

    def test_a_rule_that_is_an_order(self):
        for name, file in (('step', 'Steps'), ('Step', 'Walking')):
            self.finds('docs/RULES.md', '`lowest-is` | `crates/low/proofs/Low.antt`', f'`{name}` | `crates/high/specs/{file}.antt`',
                       f'docs/RULES.md:14: {name} is no rule: an order in crates/high/specs/{file}.antt')
        self.finds('docs/RULES.md', '`lowest-is` | `crates/low/proofs/Low.antt`', '`walk` | `crates/high/specs/Walking.antt`')

    def test_a_rule_without_its_definition(self):
        said = 'docs/RULES.md:15: no definition, and neither a file nor No rule:'
        self.finds('docs/RULES.md', '| - | `README.md` |', '| - | |', said)
        self.finds('docs/RULES.md', '| - | `README.md` |', '| - | No rule: |', said)
        self.finds('docs/RULES.md', '| - | `README.md` |', '| - | nothing |', said)
        self.finds('docs/RULES.md', '| - | `README.md` |', '| | `README.md` |',
                   'docs/RULES.md:15: the second cell is neither names in backticks nor -')
        self.finds('docs/RULES.md', '| `unitLimit`, `_gives_` | `crates/low/specs/Limits.antt` |', '| `unitLimit` | Limits |',
                   'docs/RULES.md:13: the third cell is no file that exists')

    def test_rows_of_another_form(self):
        self.finds('docs/RULES.md', '| No rule: a word | |', '| No rule: a word |', 'docs/RULES.md:7: a row of 3 cells',
                   'docs/RULES.md: no sentence under What is required and the exact rules')
        self.finds('docs/RULES.md', '| "Units: 2" |', '| |', 'docs/RULES.md:21: a first row without a sentence',
                   'docs/RULES.md: no sentence under Numbers')
        self.finds('docs/RULES.md', 'edit `none_sent`', 'edit `all_sent`', 'docs/RULES.md:13: no edit all_sent')

    def test_headings(self):
        self.finds('docs/RULES.md', '## Easy slips', '## Slips',
                   'docs/RULES.md: heading missing or not in its place: Easy slips',
                   'docs/RULES.md: heading not of document 01: Slips')
        self.finds('docs/RULES.md', OTHERS, '', *[f'docs/RULES.md: heading missing or not in its place: {heading}'
                                                  for heading in RULES_HEADINGS[3:]])

    def test_the_paper(self):
        paper = os.path.join(self.root, 'paper.md')
        self.put({'paper.md': PAPER})
        self.finds('README.md', 'See', 'See', arguments=('--paper', paper))
        self.finds('docs/RULES.md', '"Units: 2"', '"Units: 3"', 'docs/RULES.md:21: not in document 01 at its place: Units: 3',
                   'docs/RULES.md: under Numbers not quoted: - Units: 2 to 16.', arguments=('--paper', paper))
        self.finds('docs/RULES.md', '| "Not inside: .. timing." | - | `README.md` | |\n', '',
                   "docs/RULES.md: under The product's border not quoted: Not inside: radio, timing.",
                   arguments=('--paper', paper))

    def test_first_lines(self):
        said = 'does not begin with -- Rule: , -- Order: or -- Words: '
        for old, new in (('-- Rule: the', '-- The'), ('-- Rule: the', '-- rule: the'), ('-- Rule: the limits.', '-- Rule:'),
                         ('-- Rule: the limits.\n', ''), ('-- Rule: the', '-- More.\n-- Rule: the')):
            self.finds('crates/low/specs/Limits.antt', old, new, f'crates/low/specs/Limits.antt:1: {said}')

    def test_an_order_without_its_law(self):
        self.finds('crates/high/specs/Steps.antt', 'proofs/Walks.antt shows', 'A law shows',
                   'crates/high/specs/Steps.antt:1: an order that names no file of proofs/')
        self.finds('crates/high/specs/Steps.antt', 'Walks.antt', 'Runs.antt',
                   'crates/high/specs/Steps.antt:1: crates/high/proofs/Runs.antt does not exist')

    def test_a_further_kind(self):
        self.finds('crates/high/specs/Walking.antt', '`first`, `Step`: how', 'How',
                   'crates/high/specs/Walking.antt:1: which definitions are of the further kind Order is not said')
        self.finds('crates/high/specs/Walking.antt', '`first`,', '`last`,',
                   'crates/high/specs/Walking.antt:1: last is not defined in crates/high/specs/Walking.antt')

    def test_no_rules(self):
        self.put({name: text for name, text in NAMED.items() if name != 'docs/RULES.md'})
        status, _, said = self.run_tool('check-docs', '--names', '-r', self.root)
        self.assertEqual(status, 1)
        self.assertIn('RULES.md: No such file or directory', said)


if __name__ == '__main__':
    unittest.main()
