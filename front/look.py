"""Looking at the images of a pool without writing them: which image is which drive, and how the arrays stand.

The reading is that of docs/MEANING.md: the state of highest epoch, the drives' seats, the record that is pending put
over what the images hold, and then the superblocks of each array.
"""

from dataclasses import dataclass, field

from front.disks import Disk
from front.log import GATE, HALVES, Gate, Target, decode_gate, decode_record, record_length
from front.state import STATE_SECTOR, Copy, State, decode_state
from front.superblocks import ROW, SUPER_SECTOR, Super, decode_super, is_super_of
from front.tables import ARRAYS_FIRST, BACKUP, LOG_FIRST, LOG_SECTORS, LOG_TYPE, RAID_TYPE, Table, read_table

SLICE_HEAD = 4096


@dataclass
class Identity:
    """What an image says of itself: its copy of a state, and its partition table."""

    copy: Copy | None
    table: Table | None

    def drive_id(self) -> bytes | None:
        """The id of its drive: by its state sector, or without one by its table."""
        if self.copy:
            return self.copy.drive_id
        return self.table.disk if self.table else None


@dataclass
class Member:
    """A member of an array: its place, its position, its superblock, and whether its drive is there and unmarked."""

    place: int
    role: int
    current: bool
    found: Super | None

    @property
    def lacking(self) -> bool:
        """Whether it counts nowhere, or not up to its end."""
        return not self.current or self.found is None or self.found.rebuilding


@dataclass
class Array:
    """An array: its truth, which is the superblock of most events, its members, and where its slices begin."""

    number: int
    first: int
    young: bool
    truth: Super | None
    members: list[Member] = field(default_factory=list)
    supers: dict[int, Super] = field(default_factory=dict)

    def lacking(self) -> list[Member]:
        """The members that are missing or being rebuilt."""
        return [member for member in self.members if member.lacking]

    @property
    def resync_rows(self) -> int:
        """Rows left to resync; a young array has none."""
        return 0 if self.young or self.truth is None else self.truth.resync_rows

    @property
    def rebuild_rows(self) -> int:
        """Rows of its members that are still to be rebuilt."""
        rows = 0
        for member in self.members:
            if member.current and member.found is not None and member.found.rebuilding and self.truth:
                rows += self.truth.rows - min(member.found.recovery_offset // ROW, self.truth.rows)
        return rows


@dataclass
class Look:
    """What was seen. `seats` has the disk of each place, `rivals` the others that say they are it."""

    disks: list[Disk]
    identities: list[Identity]
    state: State | None = None
    other_pools: list[int] = field(default_factory=list)
    seats: dict[int, int] = field(default_factory=dict)
    rivals: dict[int, list[int]] = field(default_factory=dict)
    gates: dict[int, Gate] = field(default_factory=dict)
    pending: int = 0
    bad_log: list[int] = field(default_factory=list)
    arrays: list[Array] = field(default_factory=list)

    def path(self, place: int) -> str | None:
        """The file of a place's drive."""
        return self.disks[self.seats[place]].path if place in self.seats else None

    def current(self) -> list[int]:
        """The places that aren't marked missing."""
        return self.state.current() if self.state else []

    def absent(self) -> list[int]:
        """The current places that have no image among the named ones."""
        return [place for place in self.current() if place not in self.seats]

    def missing(self) -> list[int]:
        """The places that are marked missing."""
        drives = self.state.drives if self.state else ()
        return [place for place, drive in enumerate(drives) if drive.missing]

    def passed_over(self) -> list[int]:
        """The disks that stand for no current place."""
        taken = set(self.seats.values()) | {disk for rivals in self.rivals.values() for disk in rivals}
        return [disk for disk in range(len(self.disks)) if disk not in taken]


def _identify(disk: Disk) -> Identity:
    copy = decode_state(disk.read(STATE_SECTOR, 1)) if disk.sectors > STATE_SECTOR else None
    return Identity(copy, read_table(disk.read, disk.sectors))


def _newest(identities: list[Identity]) -> State | None:
    copies = [identity.copy for identity in identities if identity.copy]
    return max(copies, key=lambda copy: copy.state.epoch).state if copies else None


def _rank(identities: list[Identity], disk: int) -> tuple[int, int]:
    copy = identities[disk].copy
    return (-copy.state.epoch if copy else 1, disk)


def _seat(state: State, identities: list[Identity]) -> tuple[dict[int, int], dict[int, list[int]]]:
    """The disk of each current place, and the other disks that name the same drive."""
    named: dict[int, list[int]] = {}
    for disk, identity in enumerate(identities):
        drive_id = identity.drive_id()
        place = state.place_of(drive_id) if drive_id else None
        if place is not None and not state.drives[place].missing:
            named.setdefault(place, []).append(disk)
    seats, rivals = {}, {}
    for place, disks in sorted(named.items()):
        first, *others = sorted(disks, key=lambda disk: _rank(identities, disk))
        seats[place] = first
        if others:
            rivals[place] = others
    return seats, rivals


def _log(disk: Disk, sector: int, count: int) -> bytes:
    return disk.read(LOG_FIRST + sector, count)


def _record(disk: Disk, number: int) -> tuple[Target, ...] | None:
    half = HALVES[number % 2]
    length = record_length(_log(disk, half, 1))
    return decode_record(_log(disk, half, length), number) if length else None


def _pending(look: Look) -> tuple[Target, ...]:
    """The record that is pending, where all gates of greatest number are open; notes gates and logs that are bad."""
    for place, disk in look.seats.items():
        if look.disks[disk].sectors >= ARRAYS_FIRST:
            look.gates[place] = decode_gate(_log(look.disks[disk], GATE, 1))
    look.bad_log = [place for place, gate in look.gates.items() if not gate.well_formed]
    if look.bad_log or not look.gates:
        return ()
    number = max(gate.number for gate in look.gates.values())
    deciding = [place for place, gate in sorted(look.gates.items()) if gate.number == number]
    if not all(look.gates[place].opened for place in deciding):
        return ()
    record = _record(look.disks[look.seats[deciding[0]]], number)
    if record is None:
        look.bad_log = [deciding[0]]
        return ()
    return record


def _landing(disk: Disk, table: Table | None, target: Target) -> int | None:
    """The sector of a disk that a target stands for."""
    if target.array is None:
        return LOG_FIRST + target.sector if disk.sectors >= ARRAYS_FIRST else None
    entry = table.entry(target.array + 2) if table else None
    if entry is None or entry.kind != RAID_TYPE or entry.first < ARRAYS_FIRST or entry.last + BACKUP >= disk.sectors:
        return None
    return entry.first + target.sector if target.sector <= entry.last - entry.first else None


def _replay(look: Look, record: tuple[Target, ...]) -> None:
    """Puts the record's payloads over what the disks hold, by the places of the state that it brings."""
    brought = [copy for copy in (decode_state(t.payload) for t in record if t.array is None) if copy]
    state = max(brought, key=lambda copy: copy.state.epoch).state if brought else look.state
    assert state is not None
    seats, _ = _seat(state, look.identities)
    for target in record:
        if target.place in seats:
            disk = look.disks[seats[target.place]]
            sector = _landing(disk, look.identities[seats[target.place]].table, target)
            if sector is not None:
                disk.put_over(sector, target.payload)


def _supers(look: Look, state: State, number: int, first: int) -> dict[int, Super]:
    found = {}
    for place, disk in look.seats.items():
        if look.disks[disk].sectors > first + SUPER_SECTOR + 1:
            one = decode_super(look.disks[disk].read(first + SUPER_SECTOR, 2))
            if one and is_super_of(one, state, number, place):
                found[place] = one
    return found


def _array(look: Look, state: State, number: int, first: int) -> Array:
    supers = _supers(look, state, number, first)
    truth = max((supers[place] for place in sorted(supers)), key=lambda one: one.events, default=None)
    array = Array(number, first, number >= state.ready, truth, supers=supers)
    if truth:
        for place, role in sorted(truth.members().items(), key=lambda item: item[1]):
            current = place in look.seats
            array.members.append(Member(place, role, current, supers.get(place)))
    return array


def _arrays(look: Look, state: State) -> list[Array]:
    arrays, first = [], ARRAYS_FIRST
    for number in range(state.made):
        array = _array(look, state, number, first)
        arrays.append(array)
        if array.truth is None:
            break
        first += SLICE_HEAD + array.truth.height(state.extent) * state.extent
    return arrays


def look_at(disks: list[Disk]) -> Look:
    """Looks at the images. Reads some hundred sectors of each, and writes nothing."""
    look = Look(disks, [_identify(disk) for disk in disks])
    look.state = _newest(look.identities)
    if look.state is None:
        return look
    pool = look.state.pool
    look.other_pools = [n for n, one in enumerate(look.identities) if one.copy and one.copy.state.pool != pool]
    look.seats, look.rivals = _seat(look.state, look.identities)
    record = _pending(look)
    look.pending = len(record)
    if record:
        _replay(look, record)
        look.identities = [_identify(disk) for disk in disks]
        look.state = _newest(look.identities) or look.state
        look.seats, look.rivals = _seat(look.state, look.identities)
    look.arrays = _arrays(look, look.state)
    return look


def has_log_entry(table: Table) -> bool:
    """Whether a table has the log slice of a pool's drive."""
    return table.has(1, LOG_TYPE, LOG_FIRST, LOG_SECTORS)


def slice_sectors(array: Array, state: State) -> int:
    """The sectors of each slice of an array that has a truth."""
    assert array.truth is not None
    return SLICE_HEAD + array.truth.height(state.extent) * state.extent


def drive_sectors(units: int, extent: int) -> int:
    """The fewest sectors of a drive of so many units."""
    return 77824 + units * extent
