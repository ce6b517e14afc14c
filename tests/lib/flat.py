"""A trial over a flat array: prints its line, and makes a file, which is a volume's bytes, what the trial leaves.

usage: flat.py SEED FILE
"""

import os
import sys


class Generator:
    """The linear congruential generator of trials."""

    def __init__(self, seed: int) -> None:
        self.state = seed

    def draw(self) -> int:
        """The next number of 31 bits."""
        self.state = (self.state * 6364136223846793005 + 1442695040888963407) % 2**64
        return self.state >> 33


def main(seed: int, path: str) -> None:
    """Takes the turns, over the first 4096 sectors or all of them."""
    span = min(os.path.getsize(path) // 512, 4096)
    array = bytearray(512 * span)
    writes = reads = flushes = total = 0
    generator = Generator(seed)
    for _ in range(20000):
        a, b, c = generator.draw(), generator.draw(), generator.draw()
        at = 512 * (a % span)
        if b % 8 <= 4:
            array[at : at + 512] = bytes([c % 256]) * 512
            writes += 1
        elif b % 8 <= 6:
            total += array[at]
            reads += 1
        else:
            flushes += 1
    with open(path, "r+b") as file:
        file.write(array)
    print(f"trial turns 20000 writes {writes} reads {reads} flushes {flushes} sum {total}")


if __name__ == "__main__":
    main(int(sys.argv[1]), sys.argv[2])
