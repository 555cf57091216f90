"""What a crate is shown by those that it stands on: of their definitions and contracts those that its files name, and those that
these name in turn. A name stands for all that have it, in whichever of these crates."""

import hashlib
import os
import re

IDENTIFIER = re.compile(r"[A-Za-z_][\w']*(?:-[\w']+)*")
FUNCTION = re.compile(r"(\s*)(?:pub(?:\([a-z ]+\))? )?(?:const )?(?:unsafe )?(?:extern \"C\" )?fn (\w+)")
PASSED_ON = re.compile(r"^[ \t]*(?:pub(?:\([a-z ]+\))? )?(?:(?:ghost )?use [^;]*|mod \w+);\n", re.MULTILINE)
ITEM = re.compile(r"(?:pub(?:\([a-z ]+\))? )?(?:struct|enum|union|trait|const|static|type|impl)\b")
KEYWORDS = {"abbrev", "unfoldable", "pub", "record", "data", "mod", "impl", "struct", "enum", "trait", "const", "where", "ghost"}


def words_of(text):
    """The names in a text, and the parts of those with hyphens."""
    found = set(IDENTIFIER.findall(text))
    return found | {part for it in found if "-" in it for part in it.split("-") if part}


class Shown:
    """One declaration: what it says, the names that it is found by, and those that it names."""

    def __init__(self, lines, names=None):
        self.text = "\n".join(lines)
        self.uses = words_of(self.text)
        self.names = names or {first for first in map(first_name, lines) if first}


def first_name(line):
    """The name that a line of a declaration begins with, past the words that say what it is."""
    found = [it for it in IDENTIFIER.findall(line) if it not in KEYWORDS]
    return found[0] if found else None


def definitions_in(text):
    """The declarations of a file of definitions: what stands between empty lines, less comments, imports and the names of
    modules."""
    lines = [it.rstrip() for it in text.split("\n") if not re.match(r"\s*--|(pub )?(use|mod) \w", it)]
    for part in re.split(r"\n{2,}", "\n".join(lines)):
        if part.strip():
            yield Shown(part.strip("\n").split("\n"))


def is_seen(told, words):
    """Whether those above the crate can name the function of this line: in an `impl` of a trait it has no `pub`."""
    if not told[1]:
        return words.startswith("pub ")
    return not words.startswith("pub(")


def contracts_in(text):
    """The declarations of a source file: each function with its contract and without its body, and each other item, less
    imports and the names of modules."""
    rows, end, seen = [[]], None, True
    for line in PASSED_ON.sub("", text).split("\n"):
        words = line.strip()
        if end is not None:
            end = None if line == end else end
            continue
        told = FUNCTION.match(line)
        if told:
            seen = is_seen(told, words)
        if told or ITEM.match(line):
            rows.append([])
        if seen and words and not re.match(r"//|#\[|}", words):
            rows[-1].append(words)
        if re.match(r"\s*\{$", line) or (told and line.endswith(" {")):
            end = re.match(r"\s*", line)[0] + "}"
            seen = True
        elif words.endswith(";"):
            seen = True
    for lines in filter(None, rows):
        function = FUNCTION.match(lines[0])
        shown = Shown(lines, {function[2]} if function else None)
        if ITEM.match(lines[0]):
            shown.names |= words_of(lines[0])
        yield shown


def text_of(path):
    with open(path, encoding="utf-8") as file:
        return file.read()


def files_below(folder, parts):
    for part in parts:
        for at, _, names in sorted(os.walk(os.path.join(folder, part))):
            for name in sorted(names):
                yield os.path.join(at, name)


KEPT = {}


def declarations(folder):
    """All declarations of the crate in the folder, in order."""
    if folder not in KEPT:
        found = []
        for path in files_below(folder, ("specs", "src")):
            within = contracts_in if path.endswith(".rt") else definitions_in
            found += [(os.path.relpath(path, folder), it) for it in within(text_of(path))]
        KEPT[folder] = found
    return KEPT[folder]


def reached(folder, below, parts, others):
    """What the crate in the folder reaches of those in the folders `below`: rows of crate, path and declaration, in order."""
    wanted = set().union(*(words_of(text_of(path)) for path in [*files_below(folder, parts), *filter(os.path.isfile, others)]))
    by_name, whole = {}, []
    for crate in below:
        for path, shown in declarations(crate):
            row = (os.path.basename(crate), path, shown)
            whole.append(row)
            for name in shown.names:
                by_name.setdefault(name, []).append(row)
    found, queue, asked = set(), list(wanted), set(wanted)
    while queue:
        for row in by_name.get(queue.pop(), []):
            if id(row) not in found:
                found.add(id(row))
                new = row[2].uses - asked
                asked |= new
                queue += new
    return [row for row in whole if id(row) in found]


def reached_sum(folder, below, parts, others):
    """A sum of what the crate in the folder reaches of those in the folders `below`, wherever in them it stands."""
    total = hashlib.sha256()
    for text in sorted({shown.text for _, _, shown in reached(folder, below, parts, others)}):
        total.update(f"{text}\n".encode())
    return total.hexdigest()[:16]
