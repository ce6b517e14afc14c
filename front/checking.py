"""The word `check`: how a pool stands, told without writing anything."""

import json

from front.disks import CannotRead, Disks
from front.explain import explain_line
from front.guard import Permits, held, objections, same_files
from front.look import Array, Look, look_at
from front.sizes import show, show_extent
from front.verdict import DEGRADED, PLANNED, REFUSED, UNCLEAN, expected_refusal, status_of, works_left
from front.volume import CannotTell, group_of
from front.words import Call, WrongWords, tell

NAMES = ("whole", "unclean", "planned", "degraded", "refused")


def _extents(look: Look) -> int | None:
    if look.state is None or not look.arrays or any(array.truth is None for array in look.arrays):
        return None
    try:
        group, bad = group_of(look)
    except CannotTell:
        return None
    return group.extents if group and bad is None else None


def _array_facts(look: Look, array: Array) -> dict[str, object]:
    truth = array.truth
    if truth is None:
        return {"array": array.number, "state": "no valid superblock"}
    return {
        "array": array.number,
        "level": truth.level,
        "members": [member.place for member in array.members],
        "missing": [member.place for member in array.members if not member.current or member.found is None],
        "rebuilding": [member.place for member in array.members if member.found and member.found.rebuilding],
        "rows": truth.rows,
        "rows_to_resync": array.resync_rows,
        "rows_to_rebuild": array.rebuild_rows,
        "reshaping": truth.reshaping,
        "young": array.young,
    }


def _drive_facts(look: Look, place: int) -> dict[str, object]:
    state = look.state
    assert state is not None
    drive = state.drives[place]
    stands = "missing" if drive.missing else "there" if place in look.seats else "not named"
    return {
        "place": place,
        "image": look.path(place),
        "stands": stands,
        "units": drive.units,
        "bytes": drive.units * state.extent * 512,
    }


def _kind(look: Look, disk: int) -> str:
    """What an image is that stands for no current place."""
    identity = look.identities[disk]
    if identity.copy is None:
        return "no drive of a pool"
    if look.state is None or identity.copy.state.pool != look.state.pool:
        return f"a drive of the pool {identity.copy.state.pool.hex()}"
    place = look.state.place_of(identity.copy.drive_id)
    return (
        "a former drive of this pool"
        if place is None
        else f"the drive of place {place}, which is marked missing: it is stale"
    )


def facts(look: Look, in_use: list[str], status: int, says: str) -> dict[str, object]:
    """All that was seen, for programs."""
    told: dict[str, object] = {"status": status, "stands": NAMES[status], "says": says, "in_use": in_use}
    state = look.state
    if state is None:
        return told
    extents = _extents(look)
    refusal = expected_refusal(look)
    told |= {
        "pool": state.pool.hex(),
        "epoch": state.epoch,
        "extent": state.extent,
        "volume_bytes": None if extents is None else extents * state.extent * 512,
        "drives": [_drive_facts(look, place) for place in range(len(state.drives))],
        "others": [{"image": look.disks[disk].path, "is": _kind(look, disk)} for disk in look.passed_over()],
        "arrays": [_array_facts(look, array) for array in look.arrays],
        "plan": state.plan if state.plan == "nothing" else f"{state.plan} {state.plan_place}",
        "left": works_left(look),
        "refusal": refusal.line() if refusal else None,
    }
    return told


def advice(look: Look, names: list[str], found: list[str], status: int) -> str:
    """One sentence what to do."""
    refusal = expected_refusal(look)
    if found:
        return "; ".join(found)
    if refusal:
        return explain_line(refusal.line(), "status", names, look) or refusal.line()
    if look.absent():
        return f"place {look.absent()[0]} isn't named: name its image too, or the pool goes on without it"
    if status == DEGRADED:
        place = look.missing()[0]
        return (
            f"the drive of place {place} is missing: `roskubel replace {place} NEW IMAGE..` takes a new one in; "
            f"another loss costs data"
        )
    left = works_left(look)
    if status == PLANNED:
        risk = "; until then another loss may cost data" if left["rebuild"] else ""
        return f"{sum(left.values())} works are left: `roskubel resume IMAGE..` does them{risk}"
    if status == UNCLEAN:
        return (
            f"{left['resync']} rows are left to resync by a run that was stopped, or goes on: `roskubel resync "
            f"IMAGE..` makes them agree"
        )
    return "the pool is whole: nothing to do"


def _array_line(look: Look, array: Array) -> str:
    truth = array.truth
    if truth is None:
        return f"array {array.number}  has no valid superblock"
    kind = "mirror" if truth.level == 1 else f"RAID-5 of {truth.raid_disks}"
    states = []
    gone = [str(member.place) for member in array.members if not member.current or member.found is None]
    if gone:
        states.append(f"without place {', '.join(gone)}")
    if array.rebuild_rows:
        states.append(f"{array.rebuild_rows} of {truth.rows} rows to rebuild")
    if array.resync_rows:
        states.append(f"{array.resync_rows} of {truth.rows} rows to resync")
    if truth.reshaping:
        states.append(f"{truth.rows - truth.moved_rows} of {truth.rows} rows to reshape")
    if array.young:
        states.append(f"being made, {truth.resync_rows} of {truth.rows} rows to zero")
    places = " ".join(str(member.place) for member in array.members)
    return f"array {array.number}  {kind:<12} places {places:<10} {', '.join(states) or 'whole'}"


def _print(look: Look, in_use: list[str], says: str) -> None:
    state = look.state
    if state is not None:
        extents = _extents(look)
        volume = "not to be told" if extents is None else show(extents * state.extent * 512)
        print(f"pool {state.pool.hex()}  volume {volume}, extents of {show_extent(state.extent)}, epoch {state.epoch}")
        for place in range(len(state.drives)):
            drive = _drive_facts(look, place)
            size = show(state.drives[place].units * state.extent * 512)
            print(f"place {place}  {drive['image'] or '-'}  {drive['stands']}, {size} for layers")
        for array in look.arrays:
            print(_array_line(look, array))
        print(f"plan  {state.plan}{'' if state.plan == 'nothing' else f' of place {state.plan_place}'}")
    for disk in look.passed_over():
        print(f"also  {look.disks[disk].path}  {_kind(look, disk)}")
    for one in in_use:
        print(f"in use  {one}")
    print(says)


def check(call: Call) -> int:
    """The word `check`."""
    if not call.rest:
        raise WrongWords("check wants the images of a pool")
    try:
        with Disks(call.rest) as disks:
            twice = same_files(disks)
            in_use = [] if twice else [sentence.split(":")[0] for sentence in held(disks.disks, try_lock=False)]
            look = look_at(disks.disks)
            # What leaves a drive out is a degraded pool here, and no refusal.
            found = twice + objections(look, Permits(degraded=True))
            status = REFUSED if found else status_of(look)
            says = advice(look, call.rest, found, status)
            if "json" in call.flags:
                print(json.dumps(facts(look, in_use, status, says), indent=2))
            else:
                _print(look, in_use, says)
            return status
    except CannotRead as error:
        if "json" in call.flags:
            print(json.dumps({"status": REFUSED, "stands": NAMES[REFUSED], "says": str(error)}, indent=2))
        else:
            tell(str(error))
        return REFUSED
