"""Superblocks of arrays: Linux md, version 1.2 (docs/FORMATS.md, 'Superblock of an array')."""

from dataclasses import dataclass

from front.fields import array_id, cleared, i32, u16, u32, u64
from front.state import State

SUPER_SECTOR = 8
DATA_SECTOR = 2048
MAGIC = 0xA92B4EFC
REBUILDING, RESHAPING = 2, 4
CLEAN = (1 << 64) - 1
ROW = 128


@dataclass(frozen=True)
class Super:
    """A superblock: sizes and offsets in sectors of a member; `roles` has the position of each place, or 0xfffe and
    above."""

    feature_map: int
    set_id: bytes
    set_name: bytes
    level: int
    layout: int
    chunk: int
    size: int
    raid_disks: int
    reshape_position: int
    data_offset: int
    data_size: int
    super_offset: int
    recovery_offset: int
    dev_number: int
    events: int
    resync_offset: int
    roles: tuple[int, ...]

    @property
    def rebuilding(self) -> bool:
        """Whether its member is being rebuilt, up to the recovery offset."""
        return bool(self.feature_map & REBUILDING)

    @property
    def reshaping(self) -> bool:
        """Whether its array is being reshaped."""
        return bool(self.feature_map & RESHAPING)

    @property
    def rows(self) -> int:
        """The rows of 128 sectors that each member has."""
        return self.size // ROW

    @property
    def resync_rows(self) -> int:
        """The rows that are left to resync."""
        return max(0, self.size - self.resync_offset) // ROW

    @property
    def moved_rows(self) -> int:
        """The rows that a reshape has moved."""
        return min(self.reshape_position // (ROW * (self.raid_disks - 1)), self.rows)

    def members(self) -> dict[int, int]:
        """The position of each place that has one."""
        return {place: role for place, role in enumerate(self.roles) if role < 0xFFFE}

    def height(self, extent: int) -> int:
        """The extents that the array takes of each member."""
        return (self.size - DATA_SECTOR) // extent


def md_sum(data: bytes) -> int:
    """The sum of a superblock's 32-bit words, folded once."""
    total = sum(u32(data, at) for at in range(0, len(data) - 3, 4))
    if len(data) % 4 == 2:
        total += u16(data, len(data) - 2)
    return ((total & 0xFFFFFFFF) + (total >> 32)) & 0xFFFFFFFF


def is_super(data: bytes) -> bool:
    """Whether an md superblock of version 1 begins here, whatever its sum is."""
    return len(data) >= 256 and u32(data, 0) == MAGIC and u32(data, 4) == 1


def decode_super(data: bytes) -> Super | None:
    """The superblock in two sectors, or None where none is, or its sum is another one."""
    if not is_super(data):
        return None
    max_dev = u32(data, 220)
    length = 256 + 2 * max_dev
    if max_dev > 384 or length > len(data) or u32(data, 216) != md_sum(cleared(data[:length], 216, 4)):
        return None
    return Super(
        feature_map=u32(data, 8),
        set_id=data[16:32],
        set_name=data[32:64].rstrip(b"\0"),
        level=i32(data, 72),
        layout=u32(data, 76),
        chunk=u32(data, 88),
        size=u64(data, 80),
        raid_disks=u32(data, 92),
        reshape_position=u64(data, 104),
        data_offset=u64(data, 128),
        data_size=u64(data, 136),
        super_offset=u64(data, 144),
        recovery_offset=u64(data, 152),
        dev_number=u32(data, 160),
        events=u64(data, 200),
        resync_offset=u64(data, 208),
        roles=tuple(u16(data, 256 + 2 * place) for place in range(max_dev)),
    )


def _has_profile(found: Super, extent: int) -> bool:
    if found.feature_map & ~(REBUILDING | RESHAPING):
        return False
    mirror = (found.level, found.layout, found.chunk, found.raid_disks) == (1, 0, 0, 2)
    raid5 = (found.level, found.layout, found.chunk) == (5, 2, 128) and 2 <= found.raid_disks <= 16
    sized = found.size >= DATA_SECTOR + extent and (found.size - DATA_SECTOR) % extent == 0
    placed = (found.data_offset, found.super_offset, len(found.roles)) == (DATA_SECTOR, SUPER_SECTOR, 128)
    return (mirror or raid5) and sized and found.data_size == found.size and placed


def _has_roles(found: Super, drives: int) -> bool:
    members = found.members()
    return all(place < drives for place in members) and sorted(members.values()) == list(range(found.raid_disks))


def is_super_of(found: Super, state: State, array: int, place: int) -> bool:
    """Whether this is a valid superblock of a place's member of an array of the pool."""
    if not _has_profile(found, state.extent) or found.set_id != array_id(state.pool, array):
        return False
    if found.dev_number != place or not 1 <= found.events < 1 << 63:
        return False
    if found.reshaping:
        row = 128 * (found.raid_disks - 1)
        if found.level != 5 or found.raid_disks < 3 or found.reshape_position % row:
            return False
    return _has_roles(found, len(state.drives))
