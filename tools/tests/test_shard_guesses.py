"""The lines that a shard names, which has too few states to know which loss is the reason."""

from .test_check_command import InStore

RIGHTS = '"owner":"u","group":"u","mode":"755"'
TRACE = f'''{{"trace":3,"profile":"blocks","block":4096,{RIGHTS}}}
{{"op":"creat","path":"/lock",{RIGHTS}}}
{{"op":"write","path":"/lock","offset":0,"text":"1"}}
{{"op":"creat","path":"/log",{RIGHTS}}}
{{"op":"write","path":"/log","offset":0,"text":"row"}}
{{"op":"say","text":"row"}}
'''
COMMAND = ['sh', '-c', 'test $CRASHFS_SAYS = 0 || grep -q row log || { echo lost: a row; exit 1; }']
GUESS = 'any of these losses may be the reason'


class ShardGuesses(InStore):
    def test_a_shard_says_that_its_lines_are_a_guess_and_a_merge_knows_them(self):
        self.write('a.trace', TRACE)
        parts = []
        for number in range(1, 5):
            names = ('--shard', f'{number}/4', '--json', f'{number}.json')
            parts.append(self.check(*names, 'a.trace', command=COMMAND).stdout)
        entries = [part for part in parts if 'fsync /lock' in part]
        self.assertTrue(entries)
        for entry in entries:
            self.assertIn(GUESS, ' '.join(entry.split()))
        merged = self.run_tool('crashfs-check', '--merge', *(f'{n}.json' for n in range(1, 5)))
        whole = self.check('a.trace', command=COMMAND)
        for ran in (merged, whole):
            self.assertEqual(ran.returncode, 1, ran.stderr)
            self.assertNotIn('/lock', ran.stdout)
            self.assertNotIn(GUESS, ' '.join(ran.stdout.split()))
