"""The volume of a pool by bytes, over the lines of `serve`: what the plugin of nbdkit reads and writes."""

import errno
from collections.abc import Callable, Iterator

from front.engine import Session
from front.fields import SECTOR

BATCH = 1024


class Blocks:
    """A volume. A run ends before its script is too long, and the next one goes on."""

    def __init__(self, start: Callable[[], Session]) -> None:
        self.start = start
        self.session = start()
        self.size = int(self._ask("size").split()[1]) * SECTOR

    def _ask(self, line: str) -> str:
        reply = self.session.ask(line)
        if reply.startswith("refused"):
            raise OSError(errno.EIO, reply)
        return reply

    def _renew(self) -> None:
        if self.session.is_long:
            self.session.close()
            self.session = self.start()

    def _put(self, lines: list[bytes]) -> None:
        """Puts lines whose reply is `ok`, some at a time: the engine's replies never fill the pipe."""
        self._renew()
        refused = ""
        for at in range(0, len(lines), BATCH):
            some = lines[at : at + BATCH]
            self.session.send(b"".join(some))
            replies = [self.session.line() for _ in some]
            refused = refused or next((reply for reply in replies if reply != "ok"), "")
        if refused:
            raise OSError(errno.EIO, refused)

    def _sectors(self, first: int, count: int) -> Iterator[bytes]:
        self._renew()
        for at in range(first, first + count, BATCH):
            some = range(at, min(at + BATCH, first + count))
            self.session.send(b"".join(b"read %d\n" % sector for sector in some))
            replies = [self.session.line() for _ in some]
            for reply in replies:
                if not reply.startswith("data "):
                    raise OSError(errno.EIO, reply)
                yield (b"" if reply == "data -" else bytes.fromhex(reply[5:])).ljust(SECTOR, b"\0")

    def read(self, offset: int, length: int) -> bytes:
        """Bytes of the volume."""
        first, end = offset // SECTOR, (offset + length + SECTOR - 1) // SECTOR
        return b"".join(self._sectors(first, end - first))[offset - first * SECTOR :][:length]

    def _whole(self, offset: int, data: bytes) -> tuple[int, bytes]:
        """The whole sectors that a write changes."""
        first, end = offset // SECTOR, offset + len(data)
        head = self.read(first * SECTOR, offset - first * SECTOR) if offset % SECTOR else b""
        tail = self.read(end, SECTOR - end % SECTOR) if end % SECTOR else b""
        return first, head + data + tail

    def write(self, offset: int, data: bytes) -> None:
        """Writes bytes. A sector of one byte over and over is filled, which takes a short line."""
        first, data = self._whole(offset, data)
        lines: list[bytes] = []
        run: tuple[int, int, int] | None = None
        for at in range(0, len(data), SECTOR):
            sector, number = data[at : at + SECTOR], first + at // SECTOR
            same = sector.count(sector[0]) == SECTOR
            if run and same and run[2] == sector[0]:
                run = (run[0], run[1] + 1, run[2])
                continue
            if run:
                lines.append(b"fill %d %d %02x\n" % run)
            run = (number, 1, sector[0]) if same else None
            if not same:
                lines.append(b"write %d %s\n" % (number, sector.rstrip(b"\0").hex().encode()))
        if run:
            lines.append(b"fill %d %d %02x\n" % run)
        self._put(lines)

    def zero(self, offset: int, length: int) -> None:
        """Writes zeros."""
        first, end = -(-offset // SECTOR), (offset + length) // SECTOR
        if first >= end:
            self.write(offset, bytes(length))
            return
        if offset % SECTOR:
            self.write(offset, bytes(first * SECTOR - offset))
        self._put([b"fill %d %d 00\n" % (first, end - first)])
        if (offset + length) % SECTOR:
            self.write(end * SECTOR, bytes(offset + length - end * SECTOR))

    def flush(self) -> None:
        """All that was written is durable then."""
        self._put([b"flush\n"])

    def close(self) -> int:
        """Ends the pool. Answers the engine's status."""
        return self.session.close()
