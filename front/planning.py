"""The word `plan`: what drives of given sizes offer, and what a growth of the pool would bring."""

import os
from dataclasses import dataclass

from front.disks import CannotRead, Disks
from front.explain import explain_line
from front.guard import Objection
from front.layers import RESERVE, Layer, NoPlan, Standing, add, best_extent, layout, take_place, units_of
from front.look import Look, look_at
from front.making import parse_extent
from front.picture import draw
from front.sizes import NoSize, parse_size, show, show_extent
from front.texts import find_text
from front.verdict import expected_refusal
from front.volume import group_of
from front.words import Call, WrongWords


@dataclass(frozen=True)
class Drives:
    """What is planned: the sectors of each drive, its name if it is an image, and the pool that stands on them, if
    any."""

    sectors: tuple[int, ...]
    names: tuple[str, ...]
    extent: int
    standing: Standing
    is_pool: bool


def _size(word: str) -> tuple[int, str | None]:
    """The sectors of a size or of an image file, and the file's name."""
    try:
        return parse_size(word) // 512, None
    except NoSize as error:
        if not os.path.exists(word):
            raise WrongWords(str(error)) from error
    with Disks([word]) as found:
        return found.disks[0].sectors, word


def standing_of(look: Look) -> Standing:
    """The layers that stand in a pool which opens. Raises an Objection where they can't be told."""
    refusal = expected_refusal(look)
    state = look.state
    if refusal or state is None:
        raise Objection(
            f"the pool of these images can't be planned: "
            f"{explain_line(refusal.line(), 'status', (), look) if refusal else ''}"
        )
    if state.plan != "nothing":
        raise Objection("a change of this pool is being carried out: `roskubel resume IMAGE..` first, and plan then")
    layers = tuple(
        Layer(tuple(member.place for member in array.members), array.truth.height(state.extent))
        for array in look.arrays
        if array.truth
    )
    group, _ = group_of(look)
    segments = group.segments if group else ()
    last = segments[-1].array if segments else 0
    return Standing(tuple(drive.units for drive in state.drives), layers, len(segments), last, state.serial)


def _pool(names: list[str]) -> tuple[int, Standing] | None:
    """The pool on image files, or None where they hold none."""
    with Disks(names) as disks:
        look = look_at(disks.disks)
        return (look.state.extent, standing_of(look)) if look.state else None


def _new(sectors: tuple[int, ...], extent: int) -> Standing:
    try:
        return layout(tuple(units_of(own, extent) for own in sectors))
    except NoPlan as error:
        if error.drive is None:
            raise Objection(explain_line(f"refused {error.word}", "layout") or error.word) from error
        raise Objection(
            f"drive {error.drive} is too small: it has {show(sectors[error.drive] * 512)}, and a drive needs "
            f"{show((RESERVE + extent) * 512)} with extents of {show_extent(extent)}"
        ) from error


def _drives(call: Call) -> Drives:
    sizes = [_size(word) for word in call.rest]
    sectors = tuple(own for own, _ in sizes)
    names = tuple(name or "" for _, name in sizes)
    wanted = parse_extent(call.value("extent"))
    pool = _pool(list(names)) if all(names) else None
    if pool:
        extent, standing = pool
        kept = tuple(RESERVE + units * extent for units in standing.units)
        return Drives(kept, ("",) * len(kept), extent, standing, True)
    extent = wanted or best_extent(list(sectors))
    return Drives(sectors, names, extent, _new(sectors, extent), False)


def _table(drives: Drives, standing: Standing) -> list[str]:
    scale = drives.extent * 512
    lines = [f"extents of {show_extent(drives.extent)} ({drives.extent} sectors)"]
    unused = standing.unused()
    for place, units in enumerate(standing.units):
        size = show(drives.sectors[place] * 512) if place < len(drives.sectors) else show(units * scale)
        name = f"  {drives.names[place]}" if place < len(drives.names) and drives.names[place] else ""
        rest = f", {show(unused[place] * scale)} unused, since no other drive is as large" if place in unused else ""
        lines.append(
            f"drive {place:<3} {size:>10}   its loss: {show(standing.used(place) * scale)} to rebuild{rest}{name}"
        )
    for number, layer in enumerate(standing.layers):
        places = " ".join(map(str, layer.members))
        lines.append(
            f"layer {number:<3} {show(layer.extents * scale):>10}   {layer.kind}, {show(layer.height * scale)} of "
            f"each of the drives {places}"
        )
    lines.append(f"usable    {show(standing.capacity * scale):>10}   any one drive may be lost without a loss of data")
    lines.append(f"unused    {show(sum(unused.values()) * scale):>10}")
    return lines


def _why_not(word: str) -> str:
    text = find_text(f"refused {word}", "line")
    return f"not admitted ({word}): {text.sentence() if text else ''}"


def _growth(drives: Drives, grown: Standing | None, word: str | None, sectors: tuple[int, ...]) -> list[str]:
    scale = drives.extent * 512
    lines = ["", f"now                 {show(drives.standing.capacity * scale):>10}"]
    after = (
        f"{show(grown.capacity * scale):>10}   the layers that stand keep their heights"
        if grown
        else _why_not(word or "")
    )
    lines.append(f"after this growth   {after}")
    fresh = layout(tuple(units_of(own, drives.extent) for own in sectors))
    lines.append(f"as a new pool       {show(fresh.capacity * scale):>10}   of the same drives")
    if grown:
        lines += ["", "after this growth:", *_table(Drives(sectors, (), drives.extent, grown, True), grown)[1:]]
    return lines


def _added(drives: Drives, word: str) -> tuple[Standing | None, list[str]]:
    sectors, _ = _size(word)
    grown, refused = add(drives.standing, units_of(sectors, drives.extent))
    if refused == "too-many-drives" or not units_of(sectors, drives.extent):
        return None, ["", f"this growth: {_why_not(refused or 'size')}"]
    return grown, _growth(drives, grown, refused, (*drives.sectors, sectors))


def _replaced(drives: Drives, place_word: str, word: str) -> tuple[Standing | None, list[str]]:
    if not place_word.isdecimal() or int(place_word) >= len(drives.sectors):
        raise WrongWords(f"--replace wants a place from 0 to {len(drives.sectors) - 1}, and a size")
    place = int(place_word)
    sectors, _ = _size(word)
    units = units_of(sectors, drives.extent)
    grown, refused = take_place(drives.standing, place, units)
    others = tuple(sectors if at == place else own for at, own in enumerate(drives.sectors))
    if not units:
        return None, ["", f"this growth: {_why_not('size')}"]
    return grown, _growth(drives, grown, refused, others)


def _put_picture(path: str, picture: str) -> None:
    """Writes a picture, over no file but an older picture."""
    try:
        if os.path.exists(path):
            with open(path, "rb") as old:
                head = old.read(4)
            if head and head != b"<svg":
                raise Objection(f"{path} is there already, and no picture: name another file")
        with open(path, "w", encoding="utf-8") as it:
            it.write(picture + "\n")
    except OSError as error:
        raise Objection(f"{path}: {error.strerror}") from error


def plan(call: Call) -> int:
    """The word `plan`. Its status is 0 where there is a pool and the growth is admitted, else 6."""
    if not call.rest:
        raise WrongWords("plan wants the sizes of the drives, or image files")
    if "add" in call.values and "replace" in call.values:
        raise WrongWords("plan takes --add or --replace, one of them")
    try:
        drives = _drives(call)
        grown: Standing | None = drives.standing
        lines = _table(drives, drives.standing)
        if "add" in call.values:
            grown, more = _added(drives, call.values["add"][0])
            lines += more
        elif "replace" in call.values:
            grown, more = _replaced(drives, *call.values["replace"])
            lines += more
    except CannotRead as error:
        raise Objection(str(error)) from error
    print("\n".join(lines))
    picture = call.value("svg")
    if picture:
        _put_picture(picture, draw(grown or drives.standing, drives.extent))
    return 0 if grown else 6
