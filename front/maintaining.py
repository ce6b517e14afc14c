"""The words `replace`, `grow`, `resync` and `resume`: long work through the engine's `serve`, in pieces.

After an interrupt the piece that was begun is done, and the pool is ended cleanly; `resume` goes on. At the end the
book is asked: only a pool that is whole then has status 0.
"""

import os
import shutil
import signal
import tempfile
import time
from collections.abc import Iterator
from contextlib import contextmanager
from dataclasses import dataclass

from front.checking import advice
from front.contents import what_they_hold
from front.disks import CannotRead, Disk, Disks
from front.engine import Session, plain_path
from front.explain import explain_line
from front.guard import Objection, Permits, before_opening, held
from front.layers import Standing, add, take_place, units_of
from front.look import SLICE_HEAD, Look, drive_sectors, look_at
from front.planning import standing_of
from front.progress import Progress
from front.sizes import show
from front.space import too_little
from front.superblocks import ROW
from front.tables import ARRAYS_FIRST
from front.verdict import expected_refusal, status_of, works_left
from front.words import Call, WrongWords, tell

WORK_BYTES = ROW * 512
PIECE_SECONDS = 0.5
FIRST_PIECE, LARGEST_PIECE = 8, 1 << 20
INTERRUPTED = 130
REFUSED = 6
LONGEST_NAME = 255


class Interrupts:
    """Notes an interrupt, so that a piece of work is done before the pool is ended."""

    def __init__(self) -> None:
        self.came = False

    def _note(self, _number: int, _frame: object) -> None:
        self.came = True

    @contextmanager
    def noted(self) -> Iterator["Interrupts"]:
        """While this lasts, an interrupt is noted and nothing more."""
        numbers = (signal.SIGINT, signal.SIGTERM, signal.SIGHUP)
        before = [signal.signal(number, self._note) for number in numbers]
        try:
            yield self
        finally:
            for number, handler in zip(numbers, before):
                signal.signal(number, handler)


@dataclass
class Outcome:
    """How the pieces ended: the works that are left, whether an interrupt came, and a line that was refused."""

    left: int
    interrupted: bool
    refused: str


def _step(session: Session, count: int) -> tuple[int | None, str]:
    reply = session.ask(f"step {count}")
    words = reply.split()
    return (int(words[1]), "") if words[0] == "left" else (None, reply)


def do_works(session: Session, what: str, wanted: int | None, interrupts: Interrupts) -> Outcome:
    """Does so many works, or all that are left, in pieces of about half a second."""
    left, refused = _step(session, 0)
    if left is None:
        return Outcome(0, False, refused)
    goal = max(0, left - wanted) if wanted is not None else 0
    first, piece = left, FIRST_PIECE
    progress = Progress(what, (first - goal) * WORK_BYTES)
    while left > goal and not interrupts.came:
        began = time.monotonic()
        after, refused = _step(session, min(piece, left - goal))
        if after is None:
            return Outcome(left, False, refused)
        left = after
        seconds = time.monotonic() - began
        piece = max(
            1, min(LARGEST_PIECE, piece * 2 if seconds < PIECE_SECONDS / 2 else int(piece * PIECE_SECONDS / seconds))
        )
        progress.show((first - left) * WORK_BYTES)
    progress.end((first - left) * WORK_BYTES)
    return Outcome(left, left > goal, "")


@contextmanager
def script_name(path: str) -> Iterator[str]:
    """A name that a script may have for an image: without spaces, and not too long. Another path gets a link."""
    name = plain_path(path)
    try:
        fits = len(name.encode()) <= LONGEST_NAME and name.isprintable() and not any(map(str.isspace, name))
    except UnicodeEncodeError:
        fits = False
    if fits:
        yield name
        return
    folder = tempfile.mkdtemp(prefix="roskubel-")
    try:
        link = os.path.join(folder, "image")
        os.symlink(os.path.abspath(path), link)
        yield link
    finally:
        shutil.rmtree(folder, ignore_errors=True)


def _end(names: list[str], outcome: Outcome, status: int) -> int:
    """Asks the book, and says how the pool stands."""
    if outcome.refused:
        tell(explain_line(outcome.refused, "line") or outcome.refused)
    if outcome.interrupted:
        tell(
            f"interrupted: the pool is ended cleanly, and {outcome.left} works are left; `roskubel resume "
            f"{' '.join(names)}` goes on"
        )
        return INTERRUPTED
    with Disks(names) as disks:
        look = look_at(disks.disks)
        stands = status_of(look)
        lost = [place for place in look.missing()]
        for place in lost:
            tell(
                f"the drive of place {place} is missing: it refused a call while it was written; see whether its "
                f"file system is full"
            )
        print(advice(look, names, [], stands), flush=True)
    return status or stands or (REFUSED if outcome.refused else 0)


def _serve(images: list[str], line: str, what: str, wanted: int | None, after: list[str]) -> int:
    """A run that puts one line, if any, and then does the works that are left."""
    interrupts = Interrupts()
    with interrupts.noted(), Session(images) as session:
        if line:
            reply = session.ask(line)
            if reply != "ok":
                session.close()
                tell(explain_line(reply, "line") or reply)
                return REFUSED
        outcome = do_works(session, what, wanted, interrupts)
        missing = [one.split()[1] for one in session.status() if one.startswith("drive") and one.endswith("missing")]
        if missing and not outcome.refused:
            tell(f"the pool's book says that the drive of place {', '.join(missing)} is missing")
        status = session.close()
    return _end(after, outcome, status)


def _is_former(look: Look, disk: Disk) -> bool:
    """Whether an image is a drive of this pool that doesn't count any more, or is to give way."""
    with Disks([disk.path]) as found:
        copy = look_at(found.disks).identities[0].copy
    return bool(copy and look.state and copy.state.pool == look.state.pool)


def _new_image(path: str, least: int) -> Disks:
    try:
        return Disks([path])
    except CannotRead as error:
        if error.reason.startswith("no such file"):
            raise Objection(f"{path} isn't there: make it with `truncate -s {least} {path}`") from error
        raise


def _not_ready(look: Look, place: int | None) -> str | None:
    """What has to be done before a drive is taken in."""
    state = look.state
    assert state is not None
    if state.plan != "nothing":
        return "a change of the pool is being carried out: `roskubel resume IMAGE..` first"
    others = [other for other in (*look.missing(), *look.absent()) if other != place]
    if others:
        return (
            f"the drive of place {others[0]} is missing or isn't named too: only a pool that is whole but for one "
            f"drive takes a new one in"
        )
    if works_left(look)["resync"]:
        return (
            f"{works_left(look)['resync']} rows are left to resync: `roskubel resync IMAGE..` first, with all "
            f"drives named"
        )
    return None


def _seen(images: list[str], permits: Permits) -> tuple[Look, Disks]:
    disks = Disks(images)
    try:
        look = before_opening(disks, permits)
        refusal = expected_refusal(look)
        if refusal:
            raise Objection(explain_line(refusal.line(), "status", images, look) or refusal.line())
    except BaseException:
        disks.close()
        raise
    return look, disks


def _place_of(word: str, images: list[str]) -> int:
    """The place that a number or an image names."""
    if word.isdecimal():
        return int(word)
    if not os.path.exists(word):
        raise Objection(f"{word} isn't there: name the drive's place by number, as `roskubel check IMAGE..` says it")
    with Disks([word, *(image for image in images if not _same(image, word))]) as disks:
        look = look_at(disks.disks)
        identity = look.identities[0].drive_id()
        place = look.state.place_of(identity) if look.state and identity else None
    if place is None:
        raise Objection(
            f"{word} isn't a drive of this pool: name its place by number, as `roskubel check IMAGE..` says it"
        )
    return place


def _same(one: str, other: str) -> bool:
    try:
        return os.path.samefile(one, other)
    except OSError:
        return False


def _used(look: Look, place: int) -> int:
    """The bytes of a drive that its members of the arrays reach to."""
    state = look.state
    assert state is not None
    ends = sum(
        SLICE_HEAD + array.truth.height(state.extent) * state.extent
        for array in look.arrays
        if array.truth and any(member.place == place for member in array.members)
    )
    return (ARRAYS_FIRST + ends) * 512


def _check_new(look: Look, disk: Disk, permits: Permits, used: int) -> list[str]:
    """What speaks against the new image."""
    found = held([disk]) + too_little([disk], {disk.path: used})
    taken = [place for place in look.seats if look.disks[look.seats[place]].file == disk.file]
    if taken:
        return [f"{disk.path} is the drive of place {taken[0]}, which isn't missing: name another image"]
    if not permits.yes and not _is_former(look, disk):
        found += what_they_hold([disk])
    return found


def _images_of(target: str, new: str, images: list[str]) -> list[str]:
    """The images that are opened: the new one isn't among them, and a drive that gives way is, where it is there."""
    found = [image for image in images if not _same(image, new)]
    if not target.isdecimal() and not _same(target, new) and not any(_same(image, target) for image in found):
        found.append(target)
    return found


def _foreseen(look: Look, disk: Disk, place: int | None) -> tuple[Standing | None, list[str]]:
    """The pool once a new drive is added, or has taken a place, or what speaks against it."""
    assert look.state is not None
    units = units_of(disk.sectors, look.state.extent)
    now = standing_of(look)
    grown, word = add(now, units) if place is None else take_place(now, place, units)
    return grown, [f"{disk.path}: {explain_line(f'refused {word}', 'line')}"] if word else []


def _little_room(look: Look, grown: Standing, new: Disk, place: int | None) -> list[str]:
    """Whether the new image, which may take a place, and those that a new layer reaches have room for all that is
    written to them."""
    assert look.state is not None
    disks, used = [new], {new.path: new.sectors * 512}
    for layer in grown.layers[len(look.arrays) :]:
        for member in layer.members:
            if member != place and member in look.seats:
                disk = look.disks[look.seats[member]]
                disks.append(disk)
                used[disk.path] = _used(look, member) + (SLICE_HEAD + layer.height * look.state.extent) * 512
    return too_little(disks, used)


def _has_grown(look: Look, grown: Standing) -> str:
    """What is said of a pool that has grown so."""
    assert look.state is not None
    scale = look.state.extent * 512
    return (
        f"the volume has {show(grown.capacity * scale)} now, "
        f"{show((grown.capacity - standing_of(look).capacity) * scale)} more"
    )


def _against(look: Look, place: int, fresh: Disk, permits: Permits) -> tuple[Standing | None, list[str]]:
    """What speaks against a new drive at a place, and the pool that it grows where it has more extents than the one of
    before."""
    state = look.state
    assert state is not None
    units = state.drives[place].units
    found = _check_new(look, fresh, permits, _used(look, place))
    if units_of(fresh.sectors, state.extent) < units:
        found.append(
            f"{fresh.path} is too small: it has {fresh.sectors * 512} bytes, and the drive of place {place} needs "
            f"{drive_sectors(units, state.extent) * 512}"
        )
    if found or units_of(fresh.sectors, state.extent) == units:
        return None, found
    grown, found = _foreseen(look, fresh, place)
    return grown, found or (_little_room(look, grown, fresh, place) if grown else [])


def replace(call: Call) -> int:
    """The word `replace`."""
    if len(call.rest) < 3:
        raise WrongWords("replace wants a place or its image, the new image, and the pool's images")
    target, new, *images = call.rest
    place = _place_of(target, images)
    permits = call.permits()
    permits.replaced = {place}
    images = _images_of(target, new, images)
    look, disks = _seen(images, permits)
    with disks:
        state = look.state
        assert state is not None
        if place >= len(state.drives):
            raise Objection(f"the pool has the places 0 to {len(state.drives) - 1}, and no place {place}")
        blocked = _not_ready(look, place)
        if blocked:
            raise Objection(blocked)
        least = drive_sectors(state.drives[place].units, state.extent) * 512
        with _new_image(new, least) as fresh:
            grown, found = _against(look, place, fresh.disks[0], permits)
        if found:
            raise Objection(*found)
        old = look.path(place)
        said = _has_grown(look, grown) if grown else ""
    after = [image for image in images if image != old] + [new]
    what = f"replacing place {place} and growing" if grown else f"rebuilding place {place}"
    with script_name(new) as name:
        status = _serve(images, f"replace {place} {name}", what, None, after)
    if said and status == 0:
        print(said)
    return status


def grow(call: Call) -> int:
    """The word `grow`."""
    if len(call.rest) < 3:
        raise WrongWords("grow wants the new image and the pool's images")
    new, *images = call.rest
    look, disks = _seen(images, call.permits())
    with disks:
        blocked = _not_ready(look, None)
        if blocked:
            raise Objection(blocked)
        assert look.state is not None
        least = drive_sectors(max(drive.units for drive in look.state.drives), look.state.extent) * 512
        with _new_image(new, least) as fresh:
            grown, found = _foreseen(look, fresh.disks[0], None)
            found += _check_new(look, fresh.disks[0], call.permits(), 0)
            if grown and not found:
                found = _little_room(look, grown, fresh.disks[0], None)
        if found or grown is None:
            raise Objection(*found)
        said = _has_grown(look, grown)
    images = [image for image in images if not _same(image, new)]
    with script_name(new) as name:
        status = _serve(images, f"add {name}", "growing", None, [*images, new])
    if status == 0:
        print(said)
    return status


def _go_on(call: Call, what: str, wanted: str | None) -> int:
    if not call.rest:
        raise WrongWords(f"{what} wants the images of the pool")
    look, disks = _seen(call.rest, call.permits())
    with disks:
        left = works_left(look)
    count = left[wanted] if wanted else sum(left.values())
    if count == 0:
        with Disks(call.rest) as again:
            look = look_at(again.disks)
            status = status_of(look)
            print(advice(look, call.rest, [], status))
        return status
    return _serve(call.rest, "", what, count if wanted else None, call.rest)


def resync(call: Call) -> int:
    """The word `resync`."""
    return _go_on(call, "resyncing", "resync")


def resume(call: Call) -> int:
    """The word `resume`."""
    return _go_on(call, "resuming", None)
