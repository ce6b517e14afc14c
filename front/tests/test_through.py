"""The engine's own forms go through the front unchanged, whatever their input and output are."""

import subprocess
import unittest

from front.tests.pools import ROSKUBEL, TEN, THIRTY, TWENTY, PoolCase


class Through(PoolCase):
    """What the engine's own forms print and answer, the same with the front before them."""

    def test_same_output_and_status(self) -> None:
        images = self.make(TEN, TWENTY, THIRTY)
        self.write(images, "fill 0 3840 5a")
        for words, script in (
            (["layout", "128", "79104", "80384"], ""),
            (["layout", "128", "79104"], ""),
            (["status", *images], ""),
            (["examine", "b"], ""),
            (["examine", "none"], ""),
            (["export", *images], ""),
            (["serve", *images], "size\nread 0\nread 3840\nreed\n"),
            (["serve", *reversed(images)], ""),
            (["trial", "7", *images, "--yes"], ""),
        ):
            status = self.call(*words, script=script)
            own, raw = self.err, self.raw
            self.assertEqual(self.engine(*(word for word in words if word != "--yes"), script=script), status, own)
            self.assertEqual(self.raw, raw)

    def test_engine_alone(self) -> None:
        self.make(TEN, TEN)
        self.assertEqual(self.call("--engine", "status", "a"), 0)
        self.assertIn("drive 1 units 10 missing", self.out)

    def test_a_lost_drive_is_told(self) -> None:
        images = self.make(TEN, TEN)
        self.assertEqual(self.call("serve", *images, script="lose 1\n"), 0)
        self.assertIn("the drive of place 1 (b) is marked missing since this run", self.err)
        self.assertEqual(self.call("serve", *images, script="size\n"), 0)
        self.assertEqual(self.err, "")

    def test_closed_streams(self) -> None:
        images = self.make(TEN, TEN)
        for words in (["serve", *images], ["export", *images], ["import", *images], ["check", *images]):
            before = self.hashes()
            for closed, null in (
                ("<&-", "</dev/null"),
                (">&-", ">/dev/null"),
                ("2>&-", "2>/dev/null"),
                ("<&- >&- 2>&-", "</dev/null >/dev/null 2>&1"),
            ):
                found = [
                    self.call("-c", f'"$0" "$@" {how}', ROSKUBEL, *words, program="bash") for how in (closed, null)
                ]
                self.assertEqual(found[0], found[1], (words, closed))
            self.assertEqual(self.hashes(), before)

    def test_a_full_output(self) -> None:
        images = self.make(TEN, TEN)
        for form in ("status", "export", "serve"):
            with open("/dev/full", "wb") as full:
                done = subprocess.run(
                    [ROSKUBEL, form, *images],
                    input=b"size\n",
                    stdout=full,
                    stderr=subprocess.PIPE,
                    cwd=self.folder,
                    check=False,
                )
            self.assertEqual(done.returncode, 5)


if __name__ == "__main__":
    unittest.main()
