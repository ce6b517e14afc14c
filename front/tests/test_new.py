"""`new`: a pool made with care, its progress, and what it refuses."""

import io
import os
import subprocess
import time
import unittest

from front.engine import find_engine
from front.progress import Progress
from front.tests.pools import ROSKUBEL, TEN, PoolCase


class New(PoolCase):
    """The word itself."""

    def test_made(self) -> None:
        for name, size in (("a", 200000), ("b", 200000), ("c", 400000)):
            self.image(name, size)
        self.assertEqual(self.call("new", "a", "b", "c"), 0, self.err)
        self.assertIn("created 243712\n", self.out)
        self.assertIn("extents of 512 KiB", self.out)
        self.assertIn("making the pool: 100 %", self.err)
        self.assertNotIn("\r", self.err)
        self.assertNotIn("\x1b", self.err)
        self.assertEqual(self.call("check", "a", "b", "c"), 0)
        self.assertEqual(self.call("new", "a", "b", "c"), 9)
        self.assertEqual(self.call("new", "--yes", "--extent", "64KiB", "a", "b", "c"), 0, self.err)
        self.assertIn("extents of 64 KiB", self.out)

    def test_refused(self) -> None:
        self.image("a", TEN)
        self.image("b", TEN)
        self.image("small", 70000)
        self.image("odd", TEN)
        with open(self.path("odd"), "ab") as it:
            it.write(b"x")
        self.image("huge", 1 << 34)
        self.image("huge2", 1 << 34)
        before = {name: os.stat(self.path(name)).st_mtime_ns for name in os.listdir(self.folder)}
        for words, status, said in (
            (["new"], 2, "images"),
            (["new", "a"], 9, "two drives"),
            (["new", "a", "none"], 9, "none isn't there: make an image"),
            (["new", "a", "small"], 9, "small is too small: it has 35840000 bytes"),
            (["new", "a", "odd"], 9, "odd: its length"),
            (["new", "a", "."], 9, "folder"),
            (["new", "a", "b", "./b"], 9, "one file"),
            (["new", "huge", "huge2"], 9, "huge, huge2 has"),
            (["new", "--extent", "3", "a", "b"], 2, "power of two"),
            (["new", "--extent", "65536", "a", "b"], 9, "a is too small"),
        ):
            self.assertEqual(self.call(*words), status, self.err)
            self.assertIn(said, self.err)
        self.assertEqual({name: os.stat(self.path(name)).st_mtime_ns for name in before}, before)

    def test_a_name_with_a_dash(self) -> None:
        self.image("-a", TEN)
        self.image("b c", TEN)
        self.assertEqual(self.call("new", "-a", "b c"), 0, self.err)
        self.assertEqual(self.call("check", "-a", "b c"), 0)


class Finding(unittest.TestCase):
    """The engine is found at once."""

    def test_in_fifty_milliseconds(self) -> None:
        times = []
        for _ in range(5):
            began = time.perf_counter()
            find_engine()
            times.append(time.perf_counter() - began)
        self.assertLess(min(times), 0.05)

    def test_none(self) -> None:
        done = subprocess.run(
            [ROSKUBEL, "layout", "128", "79104", "79104"],
            env={"PATH": "/usr/bin:/bin", "ROSKUBEL_ENGINE": "/none"},
            capture_output=True,
            text=True,
            check=False,
        )
        self.assertEqual((done.returncode, done.stdout), (1, ""))
        self.assertIn("ROSKUBEL_ENGINE names /none", done.stderr)


class Terminal(io.StringIO):
    """A stream that says it is a terminal."""

    def isatty(self) -> bool:
        return True


class Lines(unittest.TestCase):
    """What progress says."""

    def test_plain(self) -> None:
        stream = io.StringIO()
        progress = Progress("work", 1000, stream, plain_seconds=0)
        progress.show(250)
        progress.end(1000)
        first, last = stream.getvalue().splitlines()
        self.assertTrue(first.startswith("work: 25 %, 250 B of 1.00 kB"))
        self.assertTrue(last.startswith("work: 100 %, 1.00 kB in 0 s"))

    def test_terminal(self) -> None:
        stream = Terminal()
        progress = Progress("work", 1000, stream)
        progress.every = 0
        progress.show(250)
        progress.end(1000)
        self.assertEqual(stream.getvalue().count("\r"), 2)
        self.assertTrue(stream.getvalue().endswith("\n"))
