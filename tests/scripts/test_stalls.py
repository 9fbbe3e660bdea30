"""How scripts/stalls --within has the turns of a loop stand still."""
import os
import subprocess
import sys
import unittest

from . import SCRIPTS

TURNS = '''import asyncio, time
slept, time.sleep = [], lambda seconds: slept.append(seconds)
async def main():
    for _ in range(2000):
        await asyncio.sleep(0)
    turns, works = len(slept), (asyncio.to_thread(lambda: 7) for _ in range(30))
    print(turns, await asyncio.gather(*works) == [7] * 30, len(slept) > turns)
asyncio.run(main())
'''


class WithinTests(unittest.TestCase):
    def test_turns_and_works(self) -> None:
        """Some of them; what they do is done, and the status is that of the command."""
        done = subprocess.run([sys.executable, os.path.join(SCRIPTS, 'stalls'), '--within', '--seed', '5',
                               sys.executable, '-c', f'{TURNS}raise SystemExit(3)'], stdout=subprocess.PIPE, text=True,
                              check=False)
        turns, *rest = done.stdout.split()
        self.assertEqual((done.returncode, rest), (3, ['True', 'True']))
        self.assertIn(int(turns), range(10, 90))
