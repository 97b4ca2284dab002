"""Reads the files of specs and proofs of the crates, for the scripts beside it: what a file declares, and what its `use`
lines bring."""
import re
import sys
from pathlib import Path

ROOT = Path(__file__).resolve().parent.parent
CRATES = ROOT / "crates"


def read(path):
    return (ROOT / path).read_text(encoding="utf-8")


def crate_of(path):
    """The crate of a file in its src, specs or must-fail."""
    return path.parent.parent.name


def place(path):
    """The file or struct that a module's path means, as crate/specs/File, crate/proofs/File or crate::Struct; nothing for one
    of the kit's."""
    found = re.fullmatch(r"Rattle\.(\w+)\.(specs|proofs)\.(declared\.)?(\w+)(?:\.TheVariants)?", path)
    if found and found[3] and (CRATES / found[1]).is_dir():
        return f"{found[1]}::{found[4]}"
    if found and (CRATES / found[1] / found[2] / f"{found[4]}.antt").is_file():
        return f"{found[1]}/{found[2]}/{found[4]}"
    return None


def spellings(name):
    """How a name is written: itself, and of an operator its parts, which stand between its arguments."""
    return [name] + ([part for part in name.split("◌") if part] if "◌" in name else [])


def scope(lines, opening):
    """What the `use` lines bring: each name with its place and its name there, and each module's name with its place."""
    names, modules = {}, {}
    for line in lines:
        if not line.startswith(opening):
            continue
        path, _, items = line.removeprefix(opening).rstrip("; }").partition(".{")
        if items:
            for item in items.split(", "):
                name, _, other = item.partition(" as ")
                for spelling in spellings(other or name):
                    names.setdefault(spelling, (place(path), name))
        else:
            path, _, other = path.partition(" as ")
            modules[other or path.split(".")[-1]] = place(path)
    return names, modules


def pieces(lines):
    """Lines cut before each one that is indented no further than the first, unless it only closes what was opened."""
    cut = []
    for line in lines:
        if cut and (len(line) - len(line.lstrip()) > depth or line.lstrip()[0] in "})"):
            cut[-1].append(line)
        else:
            depth = len(line) - len(line.lstrip())
            cut.append([line])
    return cut


class Item:
    """A declaration: what it states (its type, with the parameters of the blocks around it), its clauses, and whether it is
    a definition. A definition is a type, or is marked so that others may unfold it; of anything else they know its type."""

    def __init__(self, name, statement, defines):
        self.name, self.statement, self.clauses, self.defines = name, statement, "", defines


class File:
    """A file of specs or lemmas: what its `use` lines bring, and its items; a constructor is an item too, that of its type."""

    def __init__(self, key):
        lines = [re.sub(r"(^|\s)--(\s.*)?$", "", line) for line in read(f"crates/{key}.antt").splitlines()]
        self.key, self.items = key, {}
        self.names, self.modules = scope(lines, "use ")
        self.add([line for line in lines if line.strip() and not re.match(r"(pub )?(use|mod) ", line)], "")

    def add(self, lines, parameters):
        item = None
        for piece in pieces(lines):
            text = " ".join(line.strip() for line in piece)
            head = re.match(r"((?:(?:unfoldable|abbrev|pub|record|data) )*)(\S+)", text)
            marks, name = head[1].split(), head[2]
            if name == "module":
                ends = next(i for i, line in enumerate(piece) if line.endswith("where"))
                self.add(piece[ends + 1 :], parameters + " " + " ".join(piece[: ends + 1]))
            elif name in ("infix", "infixl", "infixr", "unfolding", "ruleset"):
                continue
            elif marks or re.match(r"\S+( \{[^}]*\})? : ", text):
                item = Item(name, parameters + text[head.end() :], bool(set(marks) - {"pub"}))
                names = [name]
                for part in pieces(piece[1:]) if "data" in marks else []:
                    names += part[0].partition(" : ")[0].split()
                for spelling in sum(map(spellings, names), []):
                    if spelling in self.items:
                        sys.exit(f"{self.key}: which {spelling} is meant?")
                    self.items[spelling] = item
            else:
                item.clauses += " " + text

    def proofs(self):
        """The names of what is no definition."""
        return sorted({item.name for item in self.items.values() if not item.defines})


FILES = {}


def file(key):
    if key not in FILES:
        FILES[key] = File(key)
    return FILES[key]
