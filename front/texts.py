"""What each refusal means and what to do: one table, from which the front's sentences and the manual page are made.

Names of words stand in `backquotes`. A text may have {it}, which is the number or the file that the refusal names.
"""

from dataclasses import dataclass


@dataclass(frozen=True)
class Text:
    """A refusal: its word, what stands behind it, where it comes, how the manual names {it}, what it means, what to
    do."""

    word: str
    behind: str
    group: str
    it: str
    means: str
    do: str

    def sentence(self, it: str | None = None) -> str:
        """Its meaning and what to do, with a file's name or in the manual's words."""
        text = f"{self.means} {self.do}".strip().replace("{it}", it or self.it)
        return text[:1].upper() + text[1:] if it is None else text


GROUPS = {
    "words": "Of the words",
    "images": "Of the images",
    "layout": "Of a new pool or a layout",
    "import": "Of an import",
    "lines": "Of lines of a script",
    "machine": "Of the machine",
}

TEXTS = (
    Text(
        "words",
        "",
        "words",
        "",
        "The words are none of the forms, a number isn't one, or an image's name is empty or begins with a dash.",
        "Look at the synopsis, `help`; write ./-name for a file whose name begins with a dash.",
    ),
    Text(
        "attach",
        "I",
        "images",
        "image number I, counted from 0,",
        "{it} can't be opened for reading and writing, is no regular file, has a length that isn't a multiple of "
        "512 bytes, "
        "has 2^48 sectors or more, or is held by another run.",
        "Look at its path, owner and length, and for another run over it. No image has been read or written.",
    ),
    Text("twice", "", "images", "", "Two of the names are the same.", "Name each image once."),
    Text(
        "no-pool",
        "",
        "images",
        "",
        "No image has a valid copy of a pool's state.",
        "Look with `check` or `examine` whether these are the images that were meant.",
    ),
    Text(
        "two-pools",
        "",
        "images",
        "",
        "The images belong to different pools.",
        "Name the images of one pool alone; `check` says which image is of which pool.",
    ),
    Text(
        "absent",
        "C",
        "images",
        "C drives",
        "{it} of the pool, two or more, have no image among the named ones, or one that refused a call. "
        "Drives that were marked missing before aren't counted.",
        "Name all images; look at the cables, the host file system and its log where one refuses.",
    ),
    Text(
        "damaged",
        "P PART",
        "images",
        "the drive of place P",
        "A part of {it} isn't valid: `table`, the GPT, neither copy of which is valid, or which isn't the one of "
        "this drive; `state`, "
        "the copy of the pool's state; `log`, the commit log; `superblock`, that of an array.",
        "Make a copy of the image before anything else, and look at it with `examine`. Where no other drive is "
        "missing, leave its "
        "image out and put a new one in its place with `replace`: the others have all that it held.",
    ),
    Text(
        "too-few",
        "A",
        "images",
        "array A",
        "Two members of {it} or more are missing or being rebuilt, or it has no valid superblock.",
        "A drive can be replaced only where the others still hold what it held: what the array held has to come "
        "from a backup. "
        "Where one of the two is at hand and was only left out, name it too.",
    ),
    Text(
        "dirty-degraded",
        "A",
        "images",
        "array A",
        "A member of {it} is absent or missing, and a run that was stopped has left rows of it to resync: what "
        "the member had in "
        "them can't be told from the others.",
        "Name the absent image too, and the pool opens. Where its drive is lost for good, keep copies of all "
        "images: a real Linux "
        "reads the copies by force, and few rows may be wrong; docs/RECOVERY.md says how.",
    ),
    Text(
        "bad-volume",
        "A",
        "images",
        "array A",
        "The LVM2 label, header or text on {it} isn't valid, or isn't that of the pool's volume.",
        "Make copies of the images before anything else, and look at them with `examine`.",
    ),
    Text(
        "drive-gone",
        "D",
        "images",
        "image D, counted from 0,",
        "In `create` and `examine`: {it} refused a call: it can't be read or written to any more.",
        "Look at the host's log, and whether its file system is full. What `create` wrote so far stays; make the "
        "pool again.",
    ),
    Text(
        "too-few",
        "",
        "layout",
        "",
        "Fewer than two drives were named. One drive alone has no redundancy.",
        "Name two drives or more.",
    ),
    Text("too-many", "", "layout", "", "More than sixteen drives were named.", "Name the largest ones."),
    Text(
        "no-room",
        "D",
        "layout",
        "drive D, counted from 0,",
        "{it} has fewer than 77824 sectors and one extent.",
        "Take a smaller extent or a larger image, or leave it out.",
    ),
    Text(
        "long",
        "",
        "import",
        "",
        "The input has more bytes than the volume. All that fits was written and is durable.",
        "Give a larger pool, or fewer bytes.",
    ),
    Text(
        "syntax",
        "",
        "lines",
        "",
        "The line is none of the lines of a script, or has more than 1100 bytes.",
        "",
    ),
    Text(
        "range",
        "",
        "lines",
        "",
        "A sector lies past the end of the volume, of which `size` says the sectors. Nothing was written.",
        "",
    ),
    Text(
        "spent",
        "S",
        "lines",
        "sector S",
        "{it} can't be read or written any more: two drives of its array are missing, or one is and rows of the "
        "array were left to "
        "resync. Of a `fill` the sectors before it are written.",
        "Other sectors of the volume may still be there: read them in this run, since the pool isn't opened again.",
    ),
    Text(
        "stuck",
        "A",
        "lines",
        "array A",
        "{it} can't do the next work of `step`: one of its drives is missing. The works before it are done.",
        "Name the drive that is absent, or take a new one in its place.",
    ),
    Text(
        "no-such-drive",
        "",
        "lines",
        "",
        "`lose` names a place that the pool doesn't have, or that is missing already; `replace` one that the "
        "pool doesn't have.",
        "`check` says the places.",
    ),
    Text("last-drive", "", "lines", "", "`lose` names the only drive that isn't missing.", ""),
    Text(
        "attach",
        "",
        "lines",
        "",
        "The image of a `replace` or an `add` can't be had, as above of the images.",
        "Look at its path, owner and length, and for another run over it.",
    ),
    Text("twice", "", "lines", "", "The new image is that of a drive which isn't missing.", "Name another one."),
    Text(
        "plan-pending",
        "",
        "lines",
        "",
        "A change of the pool is being carried out already.",
        "Do what `step` has left first: `resume` does it.",
    ),
    Text(
        "not-whole",
        "",
        "lines",
        "",
        "A drive is missing (for `replace`: another one than the place's), or was found gone in this line and is "
        "marked.",
        "Replace that drive first.",
    ),
    Text(
        "not-resynced",
        "",
        "lines",
        "",
        "Rows are left to resync.",
        "Do them by `step` first: `resync` does it.",
    ),
    Text(
        "size",
        "",
        "lines",
        "",
        "The new drive's extents lie between those of the pool's drives, or below all of them.",
        "Take one that is as large as a drive of the pool, or at least as large as the largest; `plan` says what "
        "is admitted.",
    ),
    Text(
        "smaller",
        "",
        "lines",
        "",
        "The new drive has fewer extents than the one that it replaces.",
        "Take one that is at least as large.",
    ),
    Text(
        "too-many-drives",
        "",
        "lines",
        "",
        "The pool has sixteen drives, or no number is left for a new one.",
        "Replace a drive by a larger one.",
    ),
    Text(
        "too-many-layers",
        "",
        "lines",
        "",
        "The pool would have a seventeenth layer.",
        "Take a drive as large as one of the pool.",
    ),
    Text(
        "too-many-segments",
        "",
        "lines",
        "",
        "The volume would have more than 1024 segments.",
        "It can't grow further; make a new pool.",
    ),
    Text(
        "drive-gone",
        "",
        "lines",
        "",
        "The new image refused a call before it was one of the pool's. The pool is as it was.",
        "Look at the host's log, and whether its file system is full.",
    ),
    Text(
        "memory",
        "",
        "lines",
        "",
        "There was no memory for the image. The script goes on, and its status is 7 in the end.",
        "",
    ),
    Text(
        "memory",
        "",
        "machine",
        "",
        "There was no memory. The images are as after a stop.",
        "Call it again with more memory.",
    ),
)

STATUSES = {
    3: "more than 2^32 bytes of script were taken without `quit`: the pool was ended, and a new run goes on",
    4: "the input failed; every line that ended before was answered, and what was taken is durable",
    5: "the output failed: a full file system, or a reader that went; the pool was ended cleanly",
    7: "memory was wanting",
    8: "a sector was spent, or a work stuck: too many drives of an array are missing",
    143: "the engine was ended by a signal; the pool opens again, and a whole array that was being written has rows "
    "to resync",
}

ORDER = {
    "layout": ("layout", "words"),
    "create": ("layout", "images", "machine"),
    "import": ("import", "images", "lines", "machine"),
    "line": ("lines",),
}


def find_text(line: str, form: str) -> Text | None:
    """The text of a refusal that a form put."""
    words = line.split()
    if len(words) < 2 or words[0] != "refused":
        return None
    groups = ORDER.get(form, ("images", "lines", "words", "machine"))
    found = [text for text in TEXTS if text.word == words[1]]
    ranked = sorted(found, key=lambda text: groups.index(text.group) if text.group in groups else len(groups))
    return ranked[0] if ranked else None


def of_word(word: str) -> list[Text]:
    """All texts of a refusal's word."""
    return [text for text in TEXTS if text.word == word]
