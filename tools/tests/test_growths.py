"""Each public call that can run out of memory has a row in the tests of refused growths."""

import pathlib
import re
import unittest

CRATES = pathlib.Path(__file__).parents[2] / 'crates'

# the crates whose calls are run with each growth refused in its turn
SWEPT = [
    'cs_tree',
    'cs_overlay',
    'cs_fids',
    'cs_run',
    'cs_journal',
    'cs_registry',
    'cs_session',
    'cs_world',
    'cs_shared_runs',
    'cs_connection',
]

ROW = re.compile(r'"(cs_\w+) ([\w:]+)"')

# what an error or an answer is called that can be out of memory
MEMORY = re.compile(
    r'AllocError|RecordsFault|FidFault|PassFault|PublishFault|FindFault|ServeFault'
    r'|\bAnswer\b|\bReply\b|\bRMessage\b'
)

FUNCTION = re.compile(r'^( *)(pub )?fn (\w+)([^{;]*?)(?:\n *(?:requires|ensures)\b|\s*\{|;)', re.M)

BLOCK = re.compile(
    r'^(?:impl(?:<[^{]*?>)? (?:(\w+)(?:<[^{]*?>)? for )?(\w+)|pub trait (\w+))', re.M
)

NO_GROWTH = 'takes no memory: its faults are others'
BY_STEP = 'a part of a step of a run, whose rows make it'
BY_CALL = 'a law about a call of a store, whose row makes it'
BY_LOCK = 'made under the lock of a SharedRegistry, whose rows make it'
HANDLES = 'only more handles than there are numbers could be refused'

# calls without a row, and why
EXCEPTIONS = {
    'cs_tree PlainTree::remove': 'a plain tree takes none to remove',
    'cs_overlay laws::lower_stays_after_add': BY_CALL,
    'cs_overlay laws::lower_stays_after_change': BY_CALL,
    'cs_overlay laws::lower_stays_after_remove': BY_CALL,
    'cs_fids FidTable::put': NO_GROWTH,
    'cs_fids FidTable::take_any': NO_GROWTH,
    'cs_fids FidTable::take_walked': NO_GROWTH,
    'cs_fids FidTable::get_opened': NO_GROWTH,
    'cs_fids FidTable::open': NO_GROWTH,
    'cs_fids FidTable::move_to': NO_GROWTH,
    'cs_fids FidTable::set_place': NO_GROWTH,
    'cs_run act': BY_STEP,
    'cs_run act_close': BY_STEP,
    'cs_run act_create': BY_STEP,
    'cs_run act_open': BY_STEP,
    'cs_run act_remove': BY_STEP,
    'cs_run act_write': BY_STEP,
    'cs_run act_wstat': BY_STEP,
    'cs_journal Run::fresh': HANDLES,
    'cs_session Session::table_step': 'has no allocator',
    'cs_session serve_stream': 'a test has no memory for its buffers, and none is read',
    'cs_shared_runs AnyScene::answer': 'made by `SharedRun::call`, whose row makes it',
    'cs_shared_runs AnyScene::attach': 'made by `SharedRun::attach`, whose row makes it',
    'cs_shared_runs SharedRun::fresh': 'made by a find, whose rows make it',
    'cs_shared_runs SharedRun::try_clone': HANDLES,
    'cs_shared_runs SharedRegistry::of': HANDLES,
    'cs_shared_runs SharedRegistry::publish_own': 'the same as `publish`, but compares no contents',
    'cs_shared_runs Registry::new': BY_LOCK,
    'cs_shared_runs Registry::publish': BY_LOCK,
    'cs_shared_runs Registry::publish_own': BY_LOCK,
    'cs_shared_runs Registry::find_key': BY_LOCK,
    'cs_shared_runs Registry::reload': BY_LOCK,
    'cs_shared_runs Registry::runs': BY_LOCK,
    'cs_connection Connection::result': 'returns the end of a stream',
    'cs_connection GivenPasses::keep': 'drops what it has no memory for: an audit counts too few',
    'cs_connection serve_streams': 'starts threads, and a hoard is for a process of one',
}


# rows of calls that answer nothing
SILENT = {'cs_session Session::hang_up'}


def public_names(crate):
    """What the crate's root gives out, and its public modules."""
    root = (CRATES / crate / 'src/lib.rt').read_text()
    given = re.findall(r'pub use \w+::(?:\{([^}]*)\}|(\w+))', root)
    names = {name.strip() for many, one in given for name in (many or one).split(',')}
    return names, set(re.findall(r'^pub mod (\w+);', root, re.M))


def blocks_of(text):
    """The parts of a file by the type whose methods they are; None for what stands in no block."""
    place, name, is_trait = 0, None, False
    for found in BLOCK.finditer(text):
        yield name, is_trait, text[place : found.start()]
        trait, of, _ = found.groups()
        place, name, is_trait = found.start(), of, bool(trait)
        end = text.find('\n}\n', place)
        yield name, is_trait, text[place:end]
        place, name, is_trait = end, None, False
    yield name, is_trait, text[place:]


def calls_of(crate):
    """The public calls that can tell want of memory, as `crate Type::call`."""
    names, modules = public_names(crate)
    for path in sorted((CRATES / crate / 'src').rglob('*.rt')):
        text = path.read_text().split('#[cfg(test)]')[0]
        for of, is_trait, part in blocks_of(text):
            for _, is_public, call, rest in FUNCTION.findall(part):
                answer = rest.rpartition('->')[2] if '->' in rest else ''
                if not (is_public or is_trait) or call == 'from' or not MEMORY.search(answer):
                    continue
                if of is None and call in names:
                    yield f'{crate} {call}'
                elif of is None and path.stem in modules and path.stem == 'laws':
                    yield f'{crate} laws::{call}'
                elif of in names:
                    yield f'{crate} {of}::{call}'


def rows():
    tests = [*(CRATES / 'cs_growth_tests/src/tests').glob('*.rt')]
    return {f'{crate} {call}' for path in tests for crate, call in ROW.findall(path.read_text())}


class Growths(unittest.TestCase):
    def test_each_call_has_a_row(self):
        calls = {call for crate in SWEPT for call in calls_of(crate)}
        self.assertEqual(sorted(calls - rows() - set(EXCEPTIONS)), [])

    def test_each_row_is_a_call(self):
        calls = {call for crate in SWEPT for call in calls_of(crate)}
        self.assertEqual(sorted(rows() - calls), sorted(SILENT))
        self.assertEqual(sorted(set(EXCEPTIONS) - calls), [])
        self.assertEqual(sorted(set(EXCEPTIONS) & rows()), [])


if __name__ == '__main__':
    unittest.main()
