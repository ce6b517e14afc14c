"""An SVG picture of layers: each drive is a column, to scale, and each layer a band over the drives that are its
members.

A part that lies in no layer, since only one drive has it, is grey. Where the sectors of an extent are known sizes stand
beside the extents. The drive whose size doesn't count says so.
"""

from collections.abc import Iterable
from xml.sax.saxutils import escape

from front.layers import Layer, Standing
from front.sizes import show

# One for each layer that a pool may have, so that none stands for two.
COLORS = (
    "#4c78a8", "#59a14f", "#c77c11", "#8f5f8a", "#c8433f", "#2f7f7a", "#7d5a44", "#4a4fa0",
    "#6b7d1e", "#a3417a", "#2d6e95", "#8a6d00", "#3f7d5c", "#9a5330", "#6a4fb3", "#5d6470",
)  # fmt: skip
UNUSED = "#c8c8c8"
COLUMN, GAP, HEIGHT, LEFT, TOP = 96, 28, 360, 24, 56
# A band lower than this has no room for its name, which stands in the notes.
LOWEST_NAMED = 16
# An upper bound of what a character of a note takes of the width.
CHARACTER = 7.5


class NoLayout(ValueError):
    """A text isn't what `layout` prints."""


def read_layout(lines: Iterable[str]) -> Standing:
    """Drives and layers by the lines that `layout` prints."""
    layers: list[Layer] = []
    unused: dict[int, int] = {}
    ends = 0
    for line in lines:
        match line.split():
            case ["layer", _, "members", *members, "height", height, "extents", _]:
                layers.append(Layer(tuple(map(int, members)), int(height)))
            case ["unused", drive, extents]:
                unused[int(drive)] = int(extents)
            case ["capacity", _] | ["bound", _, "spared", _]:
                ends += 1
            case _:
                raise NoLayout(f"this is no line of a layout: {line.rstrip()}")
    if ends != 2:
        raise NoLayout("the layout has no capacity or no bound")
    count = 1 + max((*(place for layer in layers for place in layer.members), *unused))
    units = tuple(
        sum(layer.height for layer in layers if place in layer.members) + unused.get(place, 0) for place in range(count)
    )
    return Standing(units, tuple(layers))


def _box(x: float, y: float, width: float, height: float, fill: str) -> str:
    return f'<rect x="{x:.1f}" y="{y:.1f}" width="{width:.1f}" height="{height:.1f}" fill="{fill}" stroke="#ffffff"/>'


def _text(x: float, y: float, words: str, anchor: str = "start", color: str = "#222222", size: int = 13) -> str:
    said = escape(words)
    return f'<text x="{x:.1f}" y="{y:.1f}" text-anchor="{anchor}" fill="{color}" font-size="{size}">{said}</text>'


def _column(drive: int) -> int:
    return LEFT + drive * (COLUMN + GAP)


def _extents(number: int, extent: int | None) -> str:
    words = "1 extent" if number == 1 else f"{number} extents"
    return f"{words}, {show(number * extent * 512)}" if extent else words


def _layer_boxes(standing: Standing, scale: float, floor: int) -> list[str]:
    parts, below = [], 0
    for number, layer in enumerate(standing.layers):
        high = layer.height * scale
        y = floor - (below + layer.height) * scale
        for drive in layer.members:
            parts.append(_box(_column(drive), y, COLUMN, high, COLORS[number % len(COLORS)]))
            if high >= LOWEST_NAMED:
                middle = _column(drive) + COLUMN / 2
                parts.append(_text(middle, y + high / 2 + 5, f"layer {number}", "middle", "#ffffff"))
        below += layer.height
    return parts


def _drive_names(standing: Standing, extent: int | None, floor: int) -> list[str]:
    parts = []
    for drive, units in enumerate(standing.units):
        below = _extents(units, extent).split(", ")
        if drive == standing.spared:
            below.append("size doesn't count")
        middle = _column(drive) + COLUMN / 2
        parts.append(_text(middle, floor + 20, f"drive {drive}", "middle"))
        for line, words in enumerate(below):
            parts.append(_text(middle, floor + 37 + 15 * line, words, "middle", "#666666", 11))
    return parts


def _notes(standing: Standing, extent: int | None) -> tuple[list[tuple[str, str]], list[str]]:
    """The notes with the colours that they are of, and those without."""
    notes = []
    for number, layer in enumerate(standing.layers):
        high = f"{_extents(layer.height, extent)} high; offers {_extents(layer.extents, extent)}"
        kind = f"{layer.kind} of 2" if layer.kind == "mirror" else layer.kind
        notes.append((COLORS[number % len(COLORS)], f"layer {number}: {kind}, {high}"))
    for drive, units in standing.unused().items():
        notes.append((UNUSED, f"unused: {_extents(units, extent)} that only drive {drive} has"))
    bound = sum(standing.units) - standing.units[standing.spared]
    return notes, [
        f"capacity: {_extents(standing.capacity, extent)}",
        f"bound: {_extents(bound, extent)}, all drives but the one whose size doesn't count",
    ]


def _note_parts(notes: list[tuple[str, str]], last: list[str], right: int) -> list[str]:
    parts = []
    for line, (color, words) in enumerate(notes):
        parts.append(_box(right, TOP + 24 * line, 14, 14, color))
        parts.append(_text(right + 22, TOP + 24 * line + 12, words))
    below = TOP + 24 * len(notes) + 22
    return parts + [_text(right, below + 20 * line, words) for line, words in enumerate(last)]


def draw(standing: Standing, extent: int | None = None) -> str:
    """The picture as text, with sizes where the sectors of an extent are given."""
    scale = HEIGHT / max(standing.units)
    floor = TOP + HEIGHT
    parts = _layer_boxes(standing, scale, floor)
    for drive, units in standing.unused().items():
        parts.append(_box(_column(drive), floor - standing.units[drive] * scale, COLUMN, units * scale, UNUSED))
    right = _column(len(standing.units)) + 8
    notes, last = _notes(standing, extent)
    parts += _drive_names(standing, extent, floor) + _note_parts(notes, last, right)
    longest = max([22 + CHARACTER * len(words) for _, words in notes] + [CHARACTER * len(words) for words in last])
    width = int(right + longest + LEFT)
    height = max(floor + 84, TOP + 24 * len(notes) + 22 + 20 * len(last) + 14)
    head = (
        f'<svg xmlns="http://www.w3.org/2000/svg" width="{width}" height="{height}" '
        f'viewBox="0 0 {width} {height}" font-family="sans-serif">'
    )
    title = _text(LEFT, 30, "Layers of the drives, to scale", size=16)
    return "\n".join([head, f'<rect width="{width}" height="{height}" fill="#ffffff"/>', title, *parts, "</svg>"])
