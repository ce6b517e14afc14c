"""The word `help`: synopses, what a word does, and what a refusal of the engine means."""

import hashlib
import os
import subprocess

from front import VERSION
from front.engine import FORMS, TOP, NoEngine, find_engine
from front.texts import GROUPS, of_word
from front.words import FORM_SYNOPSES, WORDS, Call, WrongWords

CHECK_STATUSES = (
    "check ends with 0 whole, 1 rows to resync, 2 a plan or a rebuilding is going on, 3 degraded, 4 a refusal is "
    "to be expected"
)


def manual() -> str:
    """Where the manual page is."""
    own = os.path.join(TOP, "docs", "roskubel.8")
    return f"man -l {own}" if os.path.exists(own) else "man 8 roskubel"


def synopsis() -> str:
    """All words."""
    lines = ["usage:"]
    lines += [f"  roskubel {word.name} {word.synopsis}" for word in WORDS.values()]
    lines.append("the engine's own forms, which the guard looks at first (--engine FORM .. passes it by):")
    lines += [f"  roskubel {form} {FORM_SYNOPSES[form]}" for form in FORMS]
    lines.append("  options before a form's images: --degraded (a drive is left out), --accept-stale, --yes")
    lines.append(
        f"roskubel help WORD tells more, also of a refusal: roskubel help dirty-degraded. The manual: {manual()}"
    )
    return "\n".join(lines)


def _of_word(name: str) -> str:
    word = WORDS[name]
    more = f"\n{CHECK_STATUSES}" if name == "check" else ""
    return f"roskubel {word.name} {word.synopsis}\n{word.says}{more}"


def _of_refusal(name: str) -> str:
    return "\n".join(
        f"refused {text.word} {text.behind}".rstrip() + f" ({GROUPS[text.group].lower()}): {text.sentence()}"
        for text in of_word(name)
    )


def help_word(call: Call) -> int:
    """The word `help`."""
    if not call.rest:
        print(synopsis())
        return 0
    for name in call.rest:
        if name in WORDS:
            print(_of_word(name))
        elif name in FORMS:
            print(f"roskubel {name} {FORM_SYNOPSES[name]}\na form of the engine; the manual has it: {manual()}")
        elif of_word(name):
            print(_of_refusal(name))
        else:
            raise WrongWords(f"there is no word and no refusal '{name}'")
    return 0


def _of_which_sources() -> str | None:
    """Whether the release is of the sources as they are, where there are sources."""
    script, stamp = os.path.join(TOP, "tools", "lib", "sources.sh"), os.path.join(TOP, "release", "SOURCES")
    if not os.path.exists(script) or not os.path.exists(stamp):
        return None
    done = subprocess.run(
        ["bash", "-c", '. "$0" && sources_hash "$1"', script, TOP], capture_output=True, text=True, check=False
    )
    with open(stamp, encoding="ascii") as it:
        same = it.read().strip() == done.stdout.strip()
    return (
        "release of these sources"
        if same
        else "release of other sources: ROSKUBEL_BUILD=1 ./roskubel builds the engine anew"
    )


def version() -> int:
    """The front's version, the engine and its hash."""
    print(f"roskubel {VERSION}")
    try:
        path = find_engine()
        with open(path, "rb") as it:
            print(f"engine {path}\nsha256 {hashlib.sha256(it.read()).hexdigest()}")
        sources = _of_which_sources()
        if sources:
            print(sources)
    except (NoEngine, OSError) as error:
        print(f"no engine: {error}")
        return 1
    return 0
