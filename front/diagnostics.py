"""The manual page's DIAGNOSTICS, made from the table of texts, in mdoc(7)."""

import re
import textwrap

from front.texts import GROUPS, TEXTS, Text

BEGIN = '.\\" made by tools/diagnostics from front/texts.py: begin'
END = '.\\" end of what tools/diagnostics made'
WIDTH = 78
SENTENCE = re.compile(r"(?<=\.) (?=[A-Z`])")
PARTS = re.compile(r"`([^`]+)`([.,;:)]*)")


def _plain(text: str) -> list[str]:
    lines = textwrap.wrap(text.strip(), WIDTH, break_long_words=False, break_on_hyphens=False)
    return [f"\\&{line}" if line.startswith((".", "'")) else line for line in lines]


def _sentence(text: str) -> list[str]:
    """A sentence in lines; what stands in backquotes is a word of the program."""
    lines, at = [], 0
    for found in PARTS.finditer(text):
        lines += _plain(text[at : found.start()])
        lines.append(f".Ic {found.group(1)} {' '.join(found.group(2))}".rstrip())
        at = found.end()
    return lines + _plain(text[at:])


def _item(text: Text) -> list[str]:
    lines = [f".It Li refused {text.word} {text.behind}".rstrip()]
    for sentence in SENTENCE.split(text.sentence()):
        lines += _sentence(sentence)
    return lines


def section() -> str:
    """The subsections of all groups."""
    lines = [BEGIN]
    for group, title in GROUPS.items():
        lines += [f".Ss {title}"]
        if group == "lines":
            lines += ["The script goes on after these."]
        lines += [".Bl -tag -width Ds"]
        for text in TEXTS:
            if text.group == group:
                lines += _item(text)
        lines += [".El"]
    return "\n".join([*lines, END])


def put_into(page: str) -> str:
    """A page with the section as it is made today."""
    before, _, rest = page.partition(BEGIN)
    _, _, after = rest.partition(END)
    return before + section() + after
