"""Long work in pieces: replacing, resyncing, going on after an interrupt, and a host file system that is full."""

import json
import os
import signal
import subprocess
import time
import unittest

from front.engine import find_engine
from front.tests.pools import ROSKUBEL, TEN, THIRTY, TWENTY, PoolCase

# Sectors of images whose rebuilding takes some seconds.
LARGE = 77824 + 128 * 600
# The engine, which is handed its second piece of works only where the test allows it: so an interrupt comes amid them,
# however fast the machine is.
WAITING_ENGINE = """#!/usr/bin/env python3
import os, subprocess, sys, time

engine = os.environ["ENGINE"]
if sys.argv[1] != "serve":
    os.execv(engine, [engine, *sys.argv[1:]])
with subprocess.Popen([engine, *sys.argv[1:]], stdin=subprocess.PIPE) as child:
    pieces = 0
    for line in sys.stdin.buffer:
        pieces += line.startswith(b"step ") and line != b"step 0\\n"
        if pieces == 2 and not os.path.exists("goes-on"):
            os.mkdir("waits")
            while not os.path.exists("goes-on"):
                time.sleep(0.01)
        child.stdin.write(line)
        child.stdin.flush()
    child.stdin.close()
sys.exit(child.wait())
"""


class FilledCase(PoolCase):
    """Has a pool whose volume is known."""

    volume = b""

    def filled(self, *sizes: int) -> list[str]:
        """A pool whose volume is known."""
        images = self.make(*sizes)
        self.assertEqual(self.engine("export", *images), 0)
        self.volume = os.urandom(len(self.raw))
        self.assertEqual(self.engine("import", *images, script=self.volume), 0)
        return images

    def interrupted(self, *words: str) -> str:
        """Calls the front and interrupts it amid its works, where a waiting engine holds them. Answers what it says."""
        waiting = self.path("engine")
        with open(waiting, "w", encoding="ascii") as it:
            it.write(WAITING_ENGINE)
        os.chmod(waiting, 0o755)
        environment = {**os.environ, "ROSKUBEL_ENGINE": waiting, "ENGINE": os.path.abspath(find_engine())}
        with subprocess.Popen(
            [ROSKUBEL, *words],
            stderr=subprocess.PIPE,
            stdout=subprocess.PIPE,
            cwd=self.folder,
            env=environment,
            text=True,
        ) as run:
            while not os.path.exists(self.path("waits")) and run.poll() is None:
                time.sleep(0.01)
            run.send_signal(signal.SIGINT)
            os.mkdir(self.path("goes-on"))
            _, said = run.communicate(timeout=60)
        self.assertEqual(run.returncode, 130, said)
        return said

    def holds(self, *images: str) -> None:
        """The volume on these images is the one that was filled."""
        self.assertEqual(self.call("export", *images), 0, self.err)
        self.assertEqual(self.raw, self.volume)


    def has_grown(self, size: int, *images: str) -> None:
        """The volume has so many sectors, those that it had hold what they held, and the others zeros."""
        self.assertEqual(self.call("check", *images), 0, self.out)
        self.volume += bytes(size * 512 - len(self.volume))
        self.holds(*images)


class Replace(FilledCase):
    """A drive is replaced."""

    def test_by_place_and_by_image(self) -> None:
        for target, gone, after in (
            ("1", True, ["a", "new", "c"]),
            ("b", False, ["a", "new", "c"]),
            ("0", True, ["new", "b", "c"]),
        ):
            self.filled(TEN, TWENTY, THIRTY)
            self.image("new", TWENTY if "b" not in after else TEN)
            lost = next(image for image in "abc" if image not in after)
            if gone:
                os.unlink(self.path(lost))
            named = [image for image in "abc" if image != lost]
            self.assertEqual(self.call("replace", target, "new", *named), 0, self.err)
            self.assertIn("whole", self.out)
            self.assertRegex(self.err, r"rebuilding place \d: 100 %")
            self.assertNotIn("\r", self.err)
            self.assertEqual(self.call("check", *after), 0)
            self.holds(*after)
            os.unlink(self.path("new"))

    def test_a_stale_image_by_itself(self) -> None:
        images = self.filled(TEN, TEN)
        self.copy("a", "backup")
        self.write(images, "write 0 61", "write 0 62", "write 0 63")
        self.assertEqual(self.engine("export", *images), 0)
        self.volume = self.raw
        os.rename(self.path("backup"), self.path("a"))
        self.assertEqual(self.call("replace", "0", "a", "a", "b"), 0, self.err)
        self.holds("a", "b")

    def test_a_name_with_spaces(self) -> None:
        self.filled(TEN, TEN)
        self.image("my new drive", TEN)
        self.assertEqual(self.call("replace", "1", "my new drive", "a"), 0, self.err)
        self.holds("a", "my new drive")

    def test_refused(self) -> None:
        self.filled(TEN, TWENTY, THIRTY)
        self.image("new", TWENTY)
        self.image("small", TEN)
        self.image("large", THIRTY)
        self.copy("new", "photo")
        self.patch("photo", 7, b"text")
        before = self.hashes()
        for words, said in (
            (["1", "none", "a", "c"], "none isn't there: make it with `truncate -s 41156608 none`"),
            (["1", "small", "a", "c"], "small is too small: it has 40501248 bytes"),
            (["1", "photo", "a", "c"], "photo holds bytes"),
            (["1", "c", "a", "b"], "is the drive of place 2"),
            (["7", "new", "a", "b", "c"], "no place 7"),
            (["photo", "new", "a", "b", "c"], "photo isn't a drive of this pool"),
            (["1", "new", "a"], "refused absent 2"),
            (["0", "new", "a", "b"], "c is the drive of place 2"),
        ):
            self.assertEqual(self.call("replace", *words), 9, f"{words} {self.err}")
            self.assertIn(said, self.err)
            self.assertEqual({name: text for name, text in self.hashes().items() if name in before}, before)

    def test_by_a_larger_one(self) -> None:
        for place, gone, size, more in ((1, False, 5120, "655.36 kB"), (0, True, 6400, "1.31 MB")):
            images = self.filled(TEN, TWENTY, THIRTY)
            self.image("new", THIRTY)
            self.image("between", TWENTY + 640)
            if gone:
                os.unlink(self.path(images[place]))
                images.pop(place)
                after = ["new", *images]
            else:
                after = ["new" if at == place else image for at, image in enumerate(images)]
            self.assertEqual(self.call("replace", str(place), "between", *images), 9)
            self.assertIn("between: refused size", self.err)
            self.assertEqual(self.call("replace", str(place), "new", *images), 0, self.err)
            self.assertRegex(self.err, rf"replacing place {place} and growing: 100 %")
            self.assertIn(f"{more} more", self.out)
            self.has_grown(size, *after)
            for absent in after:
                self.assertEqual(self.engine("export", *(image for image in after if image != absent)), 0)
                self.assertEqual(self.raw, self.volume)
                # It is marked missing now, and taken in again.
                left = [image for image in after if image != absent]
                self.assertEqual(self.call("replace", str(after.index(absent)), absent, *left), 0, self.err)
            for image in set(after):
                os.unlink(self.path(image))

    def test_blocked(self) -> None:
        images = self.filled(TEN, TEN, TEN)
        self.image("new", TEN)
        self.killed(images, "write 0 61\n", 1)
        self.assertEqual(self.call("replace", "1", "new", *images), 9)
        self.assertIn("roskubel resync", self.err)
        self.assertEqual(self.call("resync", *images), 0, self.err)
        self.assertIn("resyncing: 100 %", self.err)
        self.assertEqual(self.call("resync", *images), 0)
        self.write(images, "lose 2")
        self.assertEqual(self.call("replace", "1", "new", *images), 9)
        self.assertIn("place 2", self.err)

    def test_interrupted(self) -> None:
        images = self.filled(LARGE, LARGE, LARGE)
        os.unlink(self.path("b"))
        self.image("new", LARGE)
        self.assertIn("roskubel resume a c new", self.interrupted("replace", "1", "new", "a", "c"))
        self.assertEqual(self.call("check", "a", "new", "c"), 2)
        self.image("newer", LARGE)
        self.assertEqual(self.call("replace", "0", "newer", "a", "new", "c"), 9)
        self.assertIn("resume", self.err)
        self.assertEqual(self.call("resume", "a", "new", "c"), 0, self.err)
        self.assertIn("resuming: 100 %", self.err)
        self.holds("a", "new", "c")
        self.assertEqual(images, ["a", "b", "c"])


class Grow(FilledCase):
    """A pool grows by a drive."""

    def test_grow(self) -> None:
        images = self.filled(TEN, TEN)
        self.image("new", TWENTY)
        self.assertEqual(self.call("grow", "new", *images), 0, self.err)
        self.assertRegex(self.err, r"growing: 100 %")
        self.assertIn("the pool is whole", self.out)
        self.assertRegex(self.out, r"the volume has 1\.31 MB now, .* more")
        self.has_grown(2560, *images, "new")
        for absent in "a", "b", "new":
            left = [image for image in (*images, "new") if image != absent]
            self.assertEqual(self.engine("export", *left), 0)
            self.assertEqual(self.raw, self.volume)
            # It is marked missing now, and taken in again.
            place = str([*images, "new"].index(absent))
            self.assertEqual(self.call("replace", place, absent, *left), 0, self.err)
        self.image("my newer drive", TEN)
        self.assertEqual(self.call("grow", "my newer drive", "new", *images), 0, self.err)
        self.has_grown(3840, *images, "my newer drive", "new")

    def test_a_new_layer(self) -> None:
        images = self.filled(TEN, TEN, TWENTY)
        self.image("new", TWENTY)
        self.assertEqual(self.call("grow", "new", *images), 0, self.err)
        self.assertIn("more", self.out)
        self.has_grown(40 * 128, *images, "new")

    def test_refused(self) -> None:
        images = self.filled(TEN, TWENTY, TWENTY)
        self.image("between", TEN + 640)
        self.image("new", TWENTY)
        self.copy("new", "photo")
        self.patch("photo", 7, b"text")
        before = self.hashes()
        for words, said in (
            (["between", *images], "between: refused size"),
            (["none", *images], "none isn't there: make it with `truncate -s 41156608 none`"),
            (["photo", *images], "photo holds bytes"),
            (["b", *images], "b is the drive of place 1"),
            (["new", "a", "b"], "c is the drive of place 2, and isn't named"),
        ):
            self.assertEqual(self.call("grow", *words), 9, f"{words} {self.err}")
            self.assertIn(said, self.err)
            self.assertEqual({name: text for name, text in self.hashes().items() if name in before}, before)
        self.killed(images, "write 0 61\n", 1)
        self.assertEqual(self.call("grow", "new", *images), 9)
        self.assertIn("roskubel resync", self.err)
        self.assertEqual(self.call("resync", *images), 0, self.err)
        self.assertEqual(self.call("grow", "--yes", "photo", *images), 0, self.err)

    def test_interrupted(self) -> None:
        images = self.filled(LARGE, LARGE, LARGE)
        self.image("new", LARGE)
        self.assertIn("roskubel resume a b c new", self.interrupted("grow", "new", *images))
        self.assertEqual(self.call("check", *images, "new"), 2)
        self.assertIn("plan  add of place 3", self.out)
        self.holds(*images, "new")
        self.image("newer", LARGE)
        self.assertEqual(self.call("grow", "newer", *images, "new"), 9)
        self.assertIn("resume", self.err)
        self.assertEqual(self.call("resume", *images, "new"), 0, self.err)
        self.assertIn("resuming: 100 %", self.err)
        self.has_grown(3 * 600 * 128, *images, "new")

    def test_left_as_the_engine_says(self) -> None:
        images = self.filled(TEN, TWENTY, TWENTY)
        self.image("new", TWENTY)
        self.write(images, "add new")
        images.append("new")
        for _ in range(59):
            self.assertEqual(self.engine("serve", *images, script="step 0\n"), 0)
            left = int(self.out.split()[1])
            self.call("check", "--json", *images)
            facts = json.loads(self.out)
            self.assertEqual(sum(facts["left"].values()), left)
            self.assertEqual(facts["volume_bytes"], (6400 if left < 2 else 3840) * 512)
            if left == 0:
                return
            count = 1 if left > 55 or 27 < left < 33 or left < 5 else 6
            self.assertEqual(self.engine("serve", *images, script=f"step {count}\n"), 0)
        self.fail("the works don't end")


class FullFileSystem(FilledCase):
    """A host file system that has no room, where one can be mounted."""

    def mounted(self, size: int) -> str:
        """A small file system in the folder."""
        os.mkdir(self.path("small"))
        done = subprocess.run(
            ["mount", "-t", "tmpfs", "-o", f"size={size}", "tmpfs", self.path("small")],
            capture_output=True,
            check=False,
        )
        if done.returncode:
            self.skipTest("no file system can be mounted here")
        self.addCleanup(lambda: subprocess.run(["umount", self.path("small")], check=False))
        return "small/new"

    def test_said_before(self) -> None:
        self.filled(LARGE, LARGE)
        new = self.image(self.mounted(1 << 24), LARGE)
        os.unlink(self.path("b"))
        before = self.hashes()
        self.assertEqual(self.call("replace", "1", new, "a"), 9)
        self.assertIn("small/new has 16.78 MB free", self.err)
        self.assertEqual(self.hashes(), before)

    def test_filled_amid_the_rebuilding(self) -> None:
        self.filled(TEN, TEN, TEN)
        new = self.image(self.mounted(1 << 24), TEN)
        os.unlink(self.path("b"))
        # The engine by itself says `left 0` and status 0, and the drive is missing.
        with open(self.path("small/other"), "wb") as it:
            it.write(bytes((1 << 24) - (1 << 20) - 4096 * 64))
        words = ["--engine", "serve", "a", "c"]
        self.assertEqual(self.call(*words, script=f"replace 1 {new}\nstep 1000\nstatus\n"), 0)
        self.assertEqual(self.call("check", "a", "c", new), 3)
        self.assertIn("missing", self.out)


if __name__ == "__main__":
    unittest.main()
