"""Whether a crate has only gained declarations since another checkout, and what it is shown has only gained or only lost some. A
body that was refused there is then refused here too: the definitions and contracts that it breaks still stand, and nothing that
they name has changed. Where what is shown is less, what would prove the body here would have proved it there."""

import difflib
import os
import re

from shown import files_below, reached, text_of

SKIPPED = {".rt": re.compile(r"\s*(//|(pub |ghost )?use )"), ".antt": re.compile(r"\s*--|(pub )?use ")}
ITEM = {
    ".rt": re.compile(r"\s*(#\[|(pub(\([a-z ]+\))? )?(fn|impl|mod|struct|enum|const|trait|type)\b|impl<)"),
    ".antt": re.compile(r"\S"),
}


def lines_of(text, ending):
    """The lines that say something: no comments, and no imports."""
    return [it for it in text.split("\n") if it.strip() and not SKIPPED[ending].match(it)]


def is_balanced(lines):
    """Whether the lines close what they open, and nothing else."""
    depth = 0
    for char in "".join(lines):
        depth += (char in "{([") - (char in "})]")
        if depth < 0:
            return False
    return depth == 0


def are_items(lines, ending):
    return ITEM[ending].match(lines[0]) and is_balanced(lines)


def adds_items(now, start, end, ending):
    """Whether the lines from `start` to `end`, which were added, are whole items, also where they are taken to begin some lines
    earlier or later: a comparison of lines can't tell to which of two items an equal end belongs."""
    first, last = start, end
    while first and now[first - 1] == now[last - 1]:
        first, last = first - 1, last - 1
    while last <= len(now):
        if are_items(now[first:last], ending):
            return True
        if last == len(now) or now[first] != now[last]:
            return False
        first, last = first + 1, last + 1
    return False


def is_added_to(old, new, ending):
    """Whether the new text is the old one with items added."""
    was, now = lines_of(old, ending), lines_of(new, ending)
    for kind, _, _, start, end in difflib.SequenceMatcher(None, was, now, autojunk=False).get_opcodes():
        if kind != "equal" and (kind != "insert" or not adds_items(now, start, end, ending)):
            return False
    return True


def has_only_gained(old, new, parts):
    """Whether the files of the crate in the new folder are those of the old one, with items and files added."""
    for path in files_below(old, parts):
        here = os.path.join(new, os.path.relpath(path, old))
        ending = os.path.splitext(path)[1]
        if not os.path.isfile(here):
            return False
        then, now = text_of(path), text_of(here)
        if then != now and (ending not in ITEM or not is_added_to(then, now, ending)):
            return False
    return True


def said(row):
    """What a declaration says that a crate is shown, wherever it stands: an enum's variants in no order, which no contract
    names."""
    first, *rest = row[2].text.split("\n")
    return "\n".join([first, *sorted(rest)]) if re.match(r"(pub )?enum\b", first) else row[2].text


def is_shown_alike(old, new):
    """Whether what a crate reaches, as `reached` has it of the old and of the new checkout, has only gained declarations, or
    only lost some."""
    then, now = (set(map(said, reached(*one))) for one in (old, new))
    return then <= now or now <= then
