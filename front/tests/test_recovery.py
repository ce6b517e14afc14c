"""The recipes of docs/RECOVERY.md by our own words, run word by word; after each the volume is the one that was."""

import os
import re
import shutil
import subprocess

from front.engine import TOP
from front.tests.pools import PoolCase
from front.texts import TEXTS

RECIPE = re.compile(r"<!-- recipe: (\w+) -->\n```sh\n(.*?)```", re.S)
STATUS = re.compile(r"\s+# status (\d+)$")
SIZES = {"first.img": 48 << 20, "second.img": 64 << 20, "third.img": 80 << 20}
OLD = ["first.img", "second.img", "third.img"]
NEW = ["first.img", "new.img", "third.img"]


def recipes() -> dict[str, list[str]]:
    """The commands of each recipe."""
    with open(os.path.join(TOP, "docs", "RECOVERY.md"), encoding="utf-8") as it:
        return {name: text.splitlines() for name, text in RECIPE.findall(it.read())}


class Recipes(PoolCase):
    """One test for each recipe."""

    volume = b""

    def pool(self) -> None:
        """The pool of the page, whose volume is known."""
        for name, size in SIZES.items():
            self.image(name, size // 512)
        self.assertEqual(self.engine("create", "2048", *OLD), 0)
        self.volume = os.urandom(73728 * 512)
        self.assertEqual(self.engine("import", *OLD, script=self.volume), 0)

    def follow(self, name: str, after: list[str]) -> None:
        """Runs the commands of a recipe; each has its status. The pool is whole then, and has its volume."""
        os.makedirs(self.path("bin"), exist_ok=True)
        os.symlink(os.path.join(TOP, "roskubel"), self.path("bin/roskubel"))
        environment = os.environ | {"PATH": f"{self.path('bin')}:{os.environ['PATH']}"}
        for line in recipes()[name]:
            found = STATUS.search(line)
            done = subprocess.run(
                ["bash", "-c", STATUS.sub("", line)],
                cwd=self.folder,
                env=environment,
                capture_output=True,
                text=True,
                check=False,
            )
            self.assertEqual(
                done.returncode, int(found.group(1)) if found else 0, f"{line}\n{done.stdout}{done.stderr}"
            )
        self.assertEqual(self.call("export", *after), 0, self.err)
        self.assertEqual(self.raw[: len(self.volume)], self.volume)

    def written(self, images: list[str], sector: int) -> None:
        """One more run that writes a sector."""
        self.write(images, f"write {sector} 61")
        self.volume = self.volume[: sector * 512] + b"a".ljust(512, b"\0") + self.volume[sector * 512 + 512 :]

    def test_lost(self) -> None:
        self.pool()
        os.unlink(self.path("second.img"))
        self.follow("lost", NEW)

    def test_failing(self) -> None:
        self.pool()
        self.follow("failing", NEW)

    def test_interrupted(self) -> None:
        self.pool()
        self.image("new.img", SIZES["second.img"] // 512)
        self.killed(["first.img", "third.img"], "replace 1 new.img\nstep 20\nread 0\n", 3)
        self.follow("interrupted", NEW)

    def test_stopped(self) -> None:
        self.pool()
        self.killed(OLD, f"write 0 {self.volume[:512].hex()}\n", 1)
        self.follow("stopped", OLD)

    def test_restored(self) -> None:
        self.pool()
        self.copy("first.img", "backup")
        for sector in (0, 5000, 70000):
            self.written(OLD, sector)
        shutil.move(self.path("backup"), self.path("first.img"))
        self.follow("restored", OLD)

    def test_forgotten(self) -> None:
        self.pool()
        self.written(["first.img", "third.img"], 300)
        self.follow("forgotten", OLD)

    def test_full(self) -> None:
        self.pool()
        self.write(OLD, "lose 1")
        self.written(["first.img", "third.img"], 300)
        self.follow("full", OLD)

    def test_damaged(self) -> None:
        self.pool()
        self.patch("second.img", 10248 * 512 + 100, b"x")
        self.follow("damaged", NEW)

    def test_again(self) -> None:
        self.pool()
        with open(self.path("volume.img"), "wb") as it:
            it.write(self.volume)
        self.follow("again", ["one.img", "two.img", "three.img"])

    def test_each_refusal_is_in_it(self) -> None:
        with open(os.path.join(TOP, "docs", "RECOVERY.md"), encoding="utf-8") as it:
            page = it.read()
        for text in TEXTS:
            if text.group == "images":
                self.assertIn(f"refused {text.word}", page)

    def test_each_recipe_has_a_test(self) -> None:
        tests = {name.removeprefix("test_") for name in dir(self) if name.startswith("test_")}
        self.assertLessEqual(set(recipes()), tests)
