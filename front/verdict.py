"""What is to be expected of a pool that was looked at: the engine's refusal, the works that are left, and how it
stands."""

from dataclasses import dataclass

from front.disks import CannotRead
from front.look import Array, Look, has_log_entry, slice_sectors
from front.layers import MOST_LAYERS, layer_above
from front.superblocks import ROW
from front.tables import ARRAYS_FIRST, BACKUP, RAID_TYPE
from front.volume import CannotTell, group_of

WHOLE, UNCLEAN, PLANNED, DEGRADED, REFUSED = range(5)


@dataclass(frozen=True)
class Refusal:
    """A refusal by its word, with the place, array or number that it names, and the part of a damaged drive."""

    word: str
    number: int | None = None
    part: str = ""

    def line(self) -> str:
        """The engine's line."""
        words = ["refused", self.word]
        if self.number is not None:
            words.append(str(self.number))
        return " ".join([*words, self.part] if self.part else words)


@dataclass(frozen=True)
class Stale:
    """A drive that is behind the others: its place, how far its numbers are behind, and of what."""

    place: int
    behind: int
    of: str


def _has_table(look: Look, place: int) -> bool:
    state, disk = look.state, look.disks[look.seats[place]]
    table = look.identities[look.seats[place]].table
    assert state is not None
    if table is None or table.disk != state.drives[place].id or not has_log_entry(table):
        return False
    if disk.sectors <= ARRAYS_FIRST + BACKUP - 1:
        return False
    for array in look.arrays:
        if array.truth and any(member.place == place for member in array.members):
            length = slice_sectors(array, state)
            if not table.has(array.number + 2, RAID_TYPE, array.first, length):
                return False
            if array.first + length + BACKUP - 1 >= disk.sectors:
                return False
    return True


def _damage(look: Look) -> Refusal | None:
    bad_log = min(look.bad_log, default=None)
    for place in sorted(look.seats):
        if not _has_table(look, place):
            return Refusal("damaged", place, "table")
        if look.identities[look.seats[place]].copy is None:
            return Refusal("damaged", place, "state")
        if place == bad_log:
            return Refusal("damaged", place, "log")
        members = [one for array in look.arrays for one in array.members if one.place == place]
        if any(member.current and member.found is None for member in members):
            return Refusal("damaged", place, "superblock")
    return None


def _array_refusal(look: Look) -> Refusal | None:
    for array in look.arrays:
        if array.truth is None or len(array.lacking()) > 1:
            return Refusal("too-few", array.number)
    for array in look.arrays:
        if array.lacking() and array.resync_rows:
            return Refusal("dirty-degraded", array.number)
    return None


def _volume_refusal(look: Look) -> Refusal | None:
    try:
        _, bad = group_of(look)
    except CannotTell:
        return None
    return Refusal("bad-volume", bad) if bad is not None else None


def expected_refusal(look: Look) -> Refusal | None:
    """The refusal that the engine is to be expected to answer an opening with."""
    if look.state is None:
        return Refusal("no-pool")
    if look.other_pools:
        return Refusal("two-pools")
    if len(look.absent()) > 1:
        return Refusal("absent", len(look.absent()))
    return _damage(look) or _array_refusal(look) or _volume_refusal(look)


def stale_drives(look: Look) -> list[Stale]:
    """Current drives that are behind by more than a stop leaves, which is one of each number."""
    found: dict[int, Stale] = {}

    def note(place: int, behind: int, of: str) -> None:
        if behind > 1 and place not in found:
            found[place] = Stale(place, behind, of)

    for array in look.arrays:
        if array.truth:
            for place, one in array.supers.items():
                note(place, array.truth.events - one.events, f"events of array {array.number}")
    newest_gate = max((gate.number for gate in look.gates.values()), default=0)
    for place, gate in look.gates.items():
        # A drive that was just taken in has a gate of number 0, up to the next change.
        is_new = (
            gate.number == 0
            and look.state is not None
            and look.state.plan != "nothing"
            and look.state.plan_place == place
        )
        if gate.well_formed and place in look.seats and not is_new:
            note(place, newest_gate - gate.number, "changes of the commit log")
    for place, disk in look.seats.items():
        copy = look.identities[disk].copy
        if copy and look.state:
            note(place, look.state.epoch - copy.state.epoch, "changes of the pool's state")
    return [found[place] for place in sorted(found)]


def _top(look: Look, array: Array) -> int:
    assert look.state is not None
    return sum(one.truth.height(look.state.extent) for one in look.arrays[: array.number + 1] if one.truth)


def _is_short(look: Look) -> bool:
    """Whether the volume has fewer extents than its arrays offer."""
    state = look.state
    assert state is not None
    try:
        group, _ = group_of(look)
    except CannotTell:
        return False
    offered = sum(
        one.truth.height(state.extent) * (1 if one.truth.level == 1 else one.truth.raid_disks - 1)
        for one in look.arrays
        if one.truth
    )
    return group is not None and group.extents < offered


def _growth_works(look: Look) -> int:
    """Works of a plan beyond rebuilding: reshapes of layers that the plan's drive joins, a new layer, and the
    volume's growth."""
    state = look.state
    assert state is not None
    works, grows = 0, False
    for array in look.arrays:
        truth = array.truth
        if truth is None or array.young:
            continue
        joined = any(member.place == state.plan_place for member in array.members)
        if truth.reshaping:
            works, grows = works + truth.rows - truth.moved_rows + 1, True
        elif not joined and state.drives[state.plan_place].units >= _top(look, array):
            works, grows = works + truth.rows + 2 + (truth.level == 1), True
    young = [array for array in look.arrays if array.young and array.truth]
    for array in young:
        works, grows = works + (array.truth.resync_rows if array.truth else 0) + 1, True
    if not young and len(look.arrays) < MOST_LAYERS and look.arrays:
        new = layer_above(tuple(drive.units for drive in state.drives), _top(look, look.arrays[-1]))
        if new:
            works, grows = works + (new.height * state.extent + 2048) // ROW + 2, True
    return works + 1 if grows or _is_short(look) else works


def works_left(look: Look) -> dict[str, int]:
    """The works that are left: rows to resync, rows to rebuild, works of growth, and the end of a plan."""
    works = {
        "resync": sum(array.resync_rows for array in look.arrays),
        "rebuild": sum(array.rebuild_rows for array in look.arrays),
        "growth": 0,
        "end": 0,
    }
    if look.state and look.state.plan != "nothing" and all(array.truth for array in look.arrays):
        works["growth"] = _growth_works(look)
        works["end"] = 1
    return works


def status_of(look: Look) -> int:
    """How the pool stands: 0 whole, 1 rows to resync, 2 a plan or a rebuilding, 3 degraded, 4 a refusal is to be
    expected."""
    try:
        refused = expected_refusal(look) is not None
    except CannotRead:
        return REFUSED
    if refused or look.rivals or stale_drives(look):
        return REFUSED
    assert look.state is not None
    if look.missing() or look.absent():
        return DEGRADED
    works = works_left(look)
    if look.state.plan != "nothing" or works["rebuild"] or works["growth"]:
        return PLANNED
    return UNCLEAN if works["resync"] else WHOLE
