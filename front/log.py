"""The commit log: each drive's gate, and a record that is pending (docs/FORMATS.md, 'Commit log')."""

from dataclasses import dataclass

from front.fields import SECTOR, cleared, crc32, u32, u64

GATE = 1
HALVES = (8, 4100)
HEAD = 96
MOST_TARGETS = 3996
MOST_SLICES = 272
SLICES = 17


@dataclass(frozen=True)
class Gate:
    """A gate: whether it is open, and its number. `well_formed` is False where its word or sum is another one."""

    well_formed: bool
    opened: bool = False
    number: int = 0


@dataclass(frozen=True)
class Target:
    """A payload of a record: the sector of a slice that it is for."""

    slice: int
    sector: int
    payload: bytes

    @property
    def place(self) -> int:
        """The place whose slice it is."""
        return self.slice // SLICES

    @property
    def array(self) -> int | None:
        """The array whose member's slice it is, or None for the log slice."""
        return self.slice % SLICES - 1 if self.slice % SLICES else None


def decode_gate(sector: bytes) -> Gate:
    """The gate in a sector."""
    if sector[:8] != b"SHRGATE1" or u32(sector, 8) != crc32(cleared(sector, 8, 4)):
        return Gate(False)
    return Gate(True, u32(sector, 12) == 1, u64(sector, 16))


def record_length(first: bytes) -> int | None:
    """The sectors that a half uses, by its first one, or None where its word or count is wrong."""
    count = u32(first, 12)
    if first[:8] != b"SHRBODY1" or not 1 <= count <= MOST_TARGETS:
        return None
    return HEAD + count


def decode_record(data: bytes, number: int) -> tuple[Target, ...] | None:
    """The targets of a half's used sectors, or None where the record isn't well formed."""
    if u32(data, 8) != crc32(cleared(data, 8, 4)) or u64(data, 16) != number:
        return None
    count = u32(data, 12)
    targets = []
    for index in range(count):
        at = 64 + 12 * index
        payload = data[SECTOR * (HEAD + index) : SECTOR * (HEAD + index + 1)]
        target = Target(u32(data, at), u64(data, at + 4), payload)
        if target.slice >= MOST_SLICES or (target.array is None and target.sector != 0):
            return None
        targets.append(target)
    if len({(target.slice, target.sector) for target in targets}) != count:
        return None
    return tuple(targets)
