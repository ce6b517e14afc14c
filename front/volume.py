"""The volume group on the arrays of a pool: the sectors of an array by its members, and the group's text."""

from dataclasses import dataclass

from front.fields import SECTOR, child_id, lvm_crc, lvm_text_id
from front.look import Array, Look
from front.lvm import LONGEST_TEXT, Group, NoText, decode_header, decode_label, parse_group
from front.state import State
from front.superblocks import DATA_SECTOR, ROW, Super

AREA = (4096, 1044480)


class CannotTell(Exception):
    """Too few members have a sector."""


def _member_sector(look: Look, array: Array, place: int, sector: int) -> bytes:
    return look.disks[look.seats[place]].read(array.first + DATA_SECTOR + sector, 1)


def _counts(array: Array, role: int, sector: int) -> bool:
    member = next(one for one in array.members if one.role == role)
    if not member.current or member.found is None:
        return False
    return not member.found.rebuilding or sector < member.found.recovery_offset


def _by_role(array: Array) -> dict[int, int]:
    return {member.role: member.place for member in array.members}


def _layout_at(truth: Super, sector: int) -> int:
    """The members of the layout that a sector lies in: in a reshape all of them up to its position, else one fewer."""
    is_old = truth.reshaping and sector >= truth.reshape_position
    return truth.raid_disks - 1 if is_old else truth.raid_disks


def read_array(look: Look, array: Array, sector: int) -> bytes:
    """A sector of an array: that of its member, or the XOR of the others."""
    truth = array.truth
    if truth is None:
        raise CannotTell(f"array {array.number}")
    places, count = _by_role(array), _layout_at(truth, sector)
    if truth.level == 1:
        for role in sorted(places):
            if _counts(array, role, sector):
                return _member_sector(look, array, places[role], sector)
        raise CannotTell(f"array {array.number}")
    chunk = sector // ROW
    row, data = divmod(chunk, count - 1)
    parity = count - 1 - row % count
    role, own = (parity + 1 + data) % count, ROW * row + sector % ROW
    if _counts(array, role, own):
        return _member_sector(look, array, places[role], own)
    others = [other for other in places if other != role and other < count]
    if not all(_counts(array, other, own) for other in others):
        raise CannotTell(f"array {array.number}")
    total = 0
    for other in others:
        total ^= int.from_bytes(_member_sector(look, array, places[other], own), "little")
    return total.to_bytes(SECTOR, "little")


def _bytes(look: Look, array: Array, at: int, length: int) -> bytes:
    first, last = at // SECTOR, (at + length + SECTOR - 1) // SECTOR
    data = b"".join(read_array(look, array, sector) for sector in range(first, last))
    return data[at - first * SECTOR :][:length]


@dataclass
class _Found:
    """What an array has of the group: whether its label and its header are good, and its text."""

    label: bool
    header: bool
    bad_text: bool
    group: Group | None


def _text(look: Look, array: Array, area: tuple[int, int], location: tuple[int, int, int]) -> Group | None:
    offset, size, total = location
    start, length = area
    if not 512 <= offset < length or size > LONGEST_TEXT or size > length - 512:
        return None
    head = min(size, length - offset)
    data = _bytes(look, array, start + offset, head)
    if head < size:
        data += _bytes(look, array, start + 512, size - head)
    if lvm_crc(data) != total:
        return None
    try:
        return parse_group(data.decode("utf-8", "replace"))
    except NoText:
        return None


def _group_on(look: Look, array: Array, state: State) -> _Found:
    label = decode_label(_bytes(look, array, 0, 4 * SECTOR))
    own = label is not None and label.id == child_id(state.pool, 6, array.number, 0).hex()
    area = label.area if label else None
    location = decode_header(_bytes(look, array, (area or AREA)[0], SECTOR))
    if location is None or location[0] == 0:
        return _Found(own, location is not None and area is not None, False, None)
    group = _text(look, array, area, location) if area else None
    return _Found(own, area is not None, group is None, group)


def _has_profile(group: Group, look: Look, state: State) -> bool:
    if group.name != "vg1000" or group.id != lvm_text_id(child_id(state.pool, 5, 0, 0)) or group.extent != state.extent:
        return False
    at = 0
    for segment in group.segments:
        if segment.start != at or not 0 <= segment.array < state.ready:
            return False
        at += segment.count
    return 1 <= len(group.segments) <= 1024


def group_of(look: Look) -> tuple[Group | None, int | None]:
    """The group's text of highest number among the arrays that are ready, and the lowest array that is bad, if any."""
    state = look.state
    assert state is not None
    found: dict[int, _Found] = {}
    for array in look.arrays[: state.ready]:
        found[array.number] = _group_on(look, array, state)
    groups = [one.group for one in found.values() if one.group]
    group = max(groups, key=lambda one: one.seqno, default=None)
    for number, one in found.items():
        named = group is not None and f"pv{number}" in group.volumes
        if one.bad_text or (named and not (one.label and one.header)):
            return group, number
        if number == 0 and (group is None or not _has_profile(group, look, state)):
            return group, 0
    return group, None
