"""`plan` equals the engine's `layout`; growth follows the rules of layers and of admission, and the engine's own
growth."""

import random
import subprocess
import unittest
import xml.etree.ElementTree

from front.engine import find_engine
from front.layers import NoPlan, Standing, add, best_extent, layout, take_place, units_of
from front.picture import read_layout
from front.sizes import NoSize, parse_size, show
from front.tests.pools import TEN, THIRTY, TWENTY, PoolCase

MIXES = 1000
GROWTHS = 30


def random_mix(chance: random.Random) -> tuple[int, list[int]]:
    """An extent and the sectors of some drives, as owners of pools have them: a few sizes, some of them twice."""
    extent = 1 << chance.randint(7, 16)
    kinds = [chance.randrange(60000, 1 << chance.randint(17, 35)) for _ in range(chance.randint(1, 5))]
    return extent, [chance.choice(kinds) for _ in range(chance.randint(1, 18))]


class Layouts(unittest.TestCase):
    """The layers of new pools."""

    def test_a_thousand_mixes(self) -> None:
        chance = random.Random(60)
        for _ in range(MIXES):
            extent, sectors = random_mix(chance)
            done = subprocess.run(
                [find_engine(), "layout", str(extent), *map(str, sectors)], capture_output=True, text=True, check=False
            )
            units = tuple(units_of(own, extent) for own in sectors)
            try:
                ours = layout(units)
            except NoPlan as error:
                line = " ".join(str(part) for part in ("refused", error.word, error.drive) if part is not None)
                self.assertEqual(done.stdout, f"{line}\n")
                continue
            theirs = read_layout(done.stdout.splitlines())
            self.assertEqual((ours.units, ours.layers), (theirs.units, theirs.layers))
            self.assertIn(f"capacity {ours.capacity}\nbound {ours.capacity} spared {ours.spared}\n", done.stdout)


class Growths(unittest.TestCase):
    """The rules of growth, by rows."""

    def row(self, units: tuple[int, ...], new: int, place: int | None, wanted: int | str) -> Standing | None:
        """A drive is added, or takes a place: the capacity after it, or the word of the refusal."""
        standing = layout(units)
        grown, word = add(standing, new) if place is None else take_place(standing, place, new)
        self.assertEqual(grown.capacity if grown else word, wanted, (units, new, place))
        return grown

    def test_rows(self) -> None:
        rows: tuple[tuple[tuple[int, ...], int, int | None, int | str], ...] = (
            ((10, 10, 20), 20, None, 40),
            ((10, 10, 20), 15, None, "size"),
            ((10, 10, 20), 5, None, "size"),
            ((10, 10, 20), 10, None, 30),
            ((10, 10, 20), 30, None, 40),
            ((10, 10), 10, None, 20),
            ((10, 20, 30), 5, 0, "size"),
            ((10, 20, 30), 10, 1, "smaller"),
            ((10, 20, 30), 20, 0, 40),
            ((10, 10, 20), 20, 0, 30),
            ((10, 20, 30), 30, 2, 30),
            ((10, 20, 30), 25, 2, "smaller"),
            ((10, 20, 30), 25, 0, "size"),
            ((10,) * 16, 10, None, "too-many-drives"),
        )
        for units, new, place, wanted in rows:
            self.row(units, new, place, wanted)

    def test_the_most_layers(self) -> None:
        standing = layout(tuple(range(1, 17)))
        for new, place, wanted in ((16, 0, 16), (17, 15, 16), (17, 1, "too-many-layers")):
            grown, word = take_place(standing, place, new)
            self.assertEqual(len(grown.layers) if grown else word, wanted)
            standing = grown or standing

    def test_layers_stand(self) -> None:
        chance = random.Random(7)
        for _ in range(300):
            standing = layout(tuple(chance.randint(1, 40) for _ in range(chance.randint(2, 6))))
            for _ in range(8):
                grown, _ = add(standing, chance.choice([*standing.units, max(standing.units) + chance.randint(0, 20)]))
                if grown is None:
                    break
                heights = [layer.height for layer in standing.layers]
                self.assertEqual([layer.height for layer in grown.layers][: len(heights)], heights)
                self.assertLessEqual(len(grown.layers), len(heights) + 1)
                # On drives whose units are cut points, or the largest, growth offers as much as a new pool.
                self.assertEqual(grown.capacity, layout(grown.units).capacity)
                standing = grown


class Sizes(unittest.TestCase):
    """Sizes as people write them."""

    def test_sizes(self) -> None:
        for word, size in (
            ("4T", 4 * 10**12), ("500G", 500 * 10**9), ("1.5TiB", 3 << 39), ("1,5TiB", 3 << 39),
            ("79104s", 79104 * 512), ("8tb", 8 * 10**12), ("100B", 100), ("2 TB", 2 * 10**12), ("0.1KiB", 102),
        ):  # fmt: skip
            self.assertEqual(parse_size(word), size, word)
        for word in ("4", "T", "-4T", "4X", "", "1.T", "4TT"):
            self.assertRaises(NoSize, parse_size, word)
        self.assertEqual([show(size) for size in (0, 999, 1500, 4 * 10**12)], ["0 B", "999 B", "1.50 kB", "4.00 TB"])

    def test_extents(self) -> None:
        for sectors, extent in (
            ([10**9, 10**9], 8192),
            ([79104, 79104], 256),
            ([200000, 200000], 1024),
            ([10**9, 79104], 256),
            ([78000, 78000], 128),
        ):
            self.assertEqual(best_extent(sectors), extent)


class Words(PoolCase):
    """The word itself."""

    def test_tables(self) -> None:
        self.assertEqual(self.call("plan", "1T", "2T", "4T", "4T"), 0)
        for said in ("RAID-5 of 4", "mirror", "usable       7.00 TB"):
            self.assertIn(said, self.out)
        self.assertEqual(self.call("plan", "1T", "2T", "4T", "--add", "4T"), 0)
        self.assertIn("after this growth      7.00 TB", self.out)
        self.assertEqual(self.call("plan", "1T", "2T", "--add=1.5T"), 6)
        self.assertIn("not admitted (size)", self.out)
        self.assertEqual(self.call("plan", "1T", "2T", "--replace", "1", "1T"), 6)
        self.assertIn("not admitted (smaller)", self.out)
        self.assertEqual(self.call("plan", *["1T"] * 16, "--add", "1T"), 6)
        self.assertIn("too-many-drives", self.out)

    def test_refused(self) -> None:
        for words, status, said in (
            (["plan"], 2, "sizes"),
            (["plan", "4", "4"], 2, "no unit"),
            (["plan", "1T"], 9, "two drives"),
            (["plan", "1T", "1K"], 9, "drive 1 is too small"),
            (["plan", "1T", "1T", "--replace", "2", "1T"], 2, "from 0 to 1"),
            (["plan", "1T", "1T", "--replace", "2"], 2, "2 values"),
            (["plan", "1T", "1T", "--extent", "100"], 2, "power of two"),
            (["plan", *["1T"] * 17], 9, "sixteen"),
        ):
            self.assertEqual(self.call(*words), status, words)
            self.assertIn(said, self.err)

    def test_images_and_pictures(self) -> None:
        images = self.make(TEN, TWENTY, THIRTY)
        before = self.hashes()
        self.assertEqual(self.call("plan", *images, "--add", "c", "--svg", "picture.svg"), 0, self.err)
        self.assertIn("layer 2", self.out)
        self.assertEqual(self.call("plan", "1T", "1T", "--svg", "picture.svg"), 0)
        self.assertEqual(self.call("plan", "1T", "1T", "--svg", "a"), 9)
        self.assertIn("a is there already", self.err)
        self.assertEqual(self.call("plan", "1T", "1T", "--svg", "none/picture.svg"), 9)
        xml.etree.ElementTree.parse(self.path("picture.svg"))
        self.assertEqual({name: text for name, text in self.hashes().items() if name in images}, before)

    def grows_as(self, foreseen: tuple[Standing | None, str | None], images: list[str], line: str) -> None:
        """The engine answers a line that takes a drive in as it was foreseen, and then its volume is as long."""
        grown, word = foreseen
        self.engine("serve", *images, script=f"{line}\nstep 1000000\nsize\n")
        lines = self.out.split("\n")
        self.assertEqual(lines[0], f"refused {word}" if word else "ok")
        if grown:
            self.assertEqual(lines[2], f"size {grown.capacity * 128}")

    def test_as_the_engine_grows(self) -> None:
        chance = random.Random(8)
        for _ in range(GROWTHS):
            sizes = [chance.choice((TEN, TWENTY, THIRTY)) for _ in range(chance.randint(2, 4))]
            images, new = self.make(*sizes), chance.choice((TEN, TWENTY, THIRTY))
            self.image("new", new)
            now = layout(tuple(units_of(size, 128) for size in sizes))
            self.grows_as(add(now, units_of(new, 128)), images, "add new")

    def test_as_the_engine_replaces(self) -> None:
        chance = random.Random(9)
        for _ in range(GROWTHS):
            sizes = [chance.choice((TEN, TWENTY, THIRTY)) for _ in range(chance.randint(2, 4))]
            images, new = self.make(*sizes), chance.choice((TEN, TWENTY, THIRTY))
            self.image("new", new)
            place = chance.randrange(len(sizes))
            now = layout(tuple(units_of(size, 128) for size in sizes))
            self.grows_as(take_place(now, place, units_of(new, 128)), images, f"replace {place} new")
