"""Runs over random pools that are killed at any moment: `check` foresees what the engine then answers, and calls
nothing stale.

More of them, for some minutes: python3 -m front.tests.test_foreseen SEED SECONDS
"""

import os
import random
import subprocess
import sys
import time
import unittest

from front.disks import Disks
from front.engine import find_engine
from front.look import look_at
from front.tests.pools import ONE, TEN, THIRTY, TWENTY, PoolCase
from front.verdict import expected_refusal, stale_drives, works_left

SEED, SECONDS = 60, 12.0
LATEST_KILL = 0.02


class Foreseen(PoolCase):
    """One test, of as many pools as there is time for."""

    def lines(self, chance: random.Random, sizes: list[int]) -> list[str]:
        """A script of writes, losses, works and new drives."""
        lines = []
        for _ in range(chance.randint(1, 12)):
            place = chance.randrange(len(sizes))
            kind = chance.choices(("fill", "flush", "step", "lose", "replace"), (55, 15, 15, 7, 8))[0]
            if kind == "replace":
                self.count += 1
                self.image(f"new{self.count}", sizes[place])
            lines.append(
                {
                    "fill": f"fill {chance.randrange(120)} {chance.randrange(8)} {chance.randrange(256):02x}",
                    "flush": "flush",
                    "step": f"step {chance.randint(1, 30)}",
                    "lose": f"lose {place}",
                    "replace": f"replace {place} new{self.count}",
                }[kind]
            )
        return lines

    def stopped(self, chance: random.Random, lines: list[str], images: list[str]) -> None:
        """A run of the script, which is often killed."""
        with subprocess.Popen(
            [find_engine(), "serve", *images], bufsize=0, stdin=subprocess.PIPE, stdout=subprocess.PIPE, cwd=self.folder
        ) as run:
            assert run.stdin and run.stdout
            try:
                run.stdin.write("".join(f"{line}\n" for line in lines).encode())
                if chance.random() < 0.7:
                    time.sleep(chance.random() * LATEST_KILL)
                    run.kill()
                run.stdin.close()
            except BrokenPipeError:
                pass
            run.stdout.read()

    def compare(self, named: list[str]) -> None:
        """What is foreseen of these images, and what the engine answers."""
        with Disks(map(self.path, named)) as disks:
            look = look_at(disks.disks)
            refusal, left, absent = expected_refusal(look), sum(works_left(look).values()), look.absent()
            self.assertEqual(stale_drives(look), [])
        self.engine("status", *named)
        first, *rest = self.out.split("\n")
        self.assertEqual(refusal.line() if refusal else "opened", first if first.startswith("refused") else "opened")
        if not refusal and not absent:
            self.assertIn(f"left {left}", rest)

    def some_runs(self, chance: random.Random) -> int:
        """A pool, and runs over it; after each one the images are looked at, sometimes without one of them."""
        for name in os.listdir(self.folder):
            os.unlink(self.path(name))
        sizes = [chance.choice((ONE, TEN, TWENTY, THIRTY)) for _ in range(chance.randint(2, 4))]
        self.make(*sizes)
        runs = chance.randint(1, 7)
        for _ in range(runs):
            self.stopped(chance, self.lines(chance, sizes), sorted(os.listdir(self.folder)))
            named = sorted(os.listdir(self.folder))
            if chance.random() < 0.2:
                named.remove(chance.choice(named))
            self.compare(named)
        return runs

    def test_runs(self) -> None:
        self.count = 0
        chance, end, runs = random.Random(SEED), time.monotonic() + SECONDS, 0
        while time.monotonic() < end:
            runs += self.some_runs(chance)
        self.assertGreater(runs, 0)


if __name__ == "__main__":
    if len(sys.argv) == 3:
        SEED, SECONDS = int(sys.argv[1]), float(sys.argv.pop(2))
        sys.argv.pop(1)
    unittest.main()
