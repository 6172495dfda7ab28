#!/usr/bin/env python3
"""Finds the names that README.md and docs/ call laws, clauses and definitions in the sources, and each law as exported. Run alone,
`--list CRATE..` prints the definitions and laws of these crates, or of all, each with its text."""

import pathlib
import re
import sys

ROOT = pathlib.Path(__file__).resolve().parent.parent
PAGES = [ROOT / "README.md", *sorted((ROOT / "docs").glob("*.md"))]
CRATES = {folder.name: folder for folder in sorted((ROOT / "crates").iterdir()) if (folder / "src").is_dir()}

QUOTED = r"`[^`]+`"
LIST = rf"{QUOTED}(?:(?:, and |, | and | or ){QUOTED})*"
LAW = re.compile(rf"\b[Ll]aws?:? ({LIST})")
CLAUSE = re.compile(rf"\b[Cc]lauses?:? ({LIST})(?: of `(?:\w+::)?(\w+)`)?")
ASIDE = re.compile(rf"\(({LIST})[,;)]")
PLACED = re.compile(r"`(\w+)`(?: and `(\w+)`)?, (\w+)/(?:specs|src)/(\w+\.\w+)(?: and (\w+\.\w+))?")
ITEM = re.compile(r"^\s*(?:pub(?:\(crate\))? )?(?:const |unsafe )?(?:fn|struct|enum|trait|type|const|static|ghost) (\w+)", re.M)
WORD = re.compile(r"^\s*(?:abbrev |unfoldable )?(?:pub )?(?:record |data )?([^\s:(){}]+)(?: \(| :|\s*$| \{)", re.M)
COMMENTED = re.compile(r"^((?:--(?! ----).*\n)*)(?:abbrev |unfoldable )?pub (?!mod )(?:record |data )?([^\s:(){}=]+)", re.M)
LAW_TEXT = re.compile(r"^((?:///.*\n)*)pub fn (\w+)(?:<[^>]*>)?\(\)\n", re.M)
STEP = re.compile(r"\bfn (\w+)|\b(?:ensures|requires)\*? (\w+) \{")

# The pages whose tables and sentences name clauses and laws in parentheses.
PROVED = {"CONTRACTS.md", "HEADLINE.md"}


def text(crate, kind, suffix):
    """What the files of a crate's folder say."""
    return "\n".join(file.read_text() for file in sorted((CRATES[crate] / kind).rglob(f"*.{suffix}")))


def laws(code):
    """The functions without arguments, answer and body."""
    return set(re.findall(r"^pub fn (\w+)(?:<[^>]*>)?\(\)\n(?:(?!\{\n)(?!pub fn).*\n)*?\{\}$", code, re.M))


def exported(crate):
    """What the root file of a crate gives to others."""
    root = next(file for file in (CRATES[crate] / "src" / "lib.rt", CRATES[crate] / "src" / "main.rt") if file.exists())
    return set(re.findall(r"\w+", " ".join(re.findall(r"^pub use ([^;]+);", root.read_text(), re.M))))


def clauses(code):
    """The names of the clauses of each function."""
    found, last = {}, None
    for function, clause in STEP.findall(code):
        last = function or last
        found.setdefault(last, set()).update([clause] if clause else [])
    return found


CODE = {crate: text(crate, "src", "rt") for crate in CRATES}
SPECS = {crate: text(crate, "specs", "antt") for crate in CRATES}
LAWS = {crate: laws(CODE[crate]) for crate in CRATES}
CLAUSES = clauses("\n".join(CODE.values()))
EACH_CLAUSE = set().union(*CLAUSES.values())
DEFINED = {crate: set(ITEM.findall(CODE[crate])) | set(WORD.findall(SPECS[crate])) for crate in CRATES}
EDITS = {file.stem for file in (ROOT / "crates").glob("*/must-fail/*.edit")}
KNOWN = EACH_CLAUSE.union(EDITS, *LAWS.values(), *DEFINED.values())


def names(quoted):
    """The name of each quoted text: its first word, without a type before it."""
    return [part.split()[0].split("::")[-1] for part in re.findall(r"`([^`]+)`", quoted)]


def is_law(name):
    return any(name in LAWS[crate] and name in exported(crate) for crate in CRATES)


def uncited(page, line):
    """What a line calls a law or a clause, or sets in a file, and is none there."""
    plain = re.sub(r" ?\([^()]*\)", "", line)
    yield from (name for part in LAW.findall(plain) for name in names(part) if not is_law(name))
    yield from (name for part, function in CLAUSE.findall(line) for name in names(part) if name not in CLAUSES.get(function, EACH_CLAUSE))
    if page.name in PROVED:
        asides = re.findall(r"`(\w+)`", " ".join(ASIDE.findall(line)))
        yield from (name for name in asides if name not in KNOWN and name != "requires")
    for *said, crate, place, other in PLACED.findall(line):
        files = [file for kind in ("specs", "src") for file in (ROOT / "crates" / crate / kind).rglob("*") if file.name in (place, other)]
        defined = {name for file in files for name in ITEM.findall(file.read_text()) + WORD.findall(file.read_text())}
        yield from (name for name in said if name and name not in defined)


def listed(crate):
    """The public definitions and the laws of a crate, each with its file and the comment above it, which is its text."""
    for file in sorted((CRATES[crate] / "specs").rglob("*.antt")) + sorted((CRATES[crate] / "src").rglob("*.rt")):
        for comment, name in (COMMENTED if file.suffix == ".antt" else LAW_TEXT).findall(file.read_text()):
            if file.suffix == ".antt" or name in LAWS[crate]:
                yield f"{file.relative_to(ROOT / 'crates')}: {name}: {' '.join(line.lstrip('-/ ') for line in comment.splitlines())}"


def unknown():
    """The laws that their crate doesn't give to others, and what the documents call a law, a clause or a definition and the sources don't have."""
    found = [f"crates/{crate}/src/lib.rt: {name}" for crate in CRATES for name in sorted(LAWS[crate] - exported(crate))]
    for page in PAGES:
        for number, line in enumerate(page.read_text().splitlines(), 1):
            found += [f"{page.relative_to(ROOT)}:{number}: {name}" for name in uncited(page, line)]
    return found


if __name__ == "__main__":
    if sys.argv[1:2] != ["--list"]:
        sys.exit(__doc__)
    print("\n".join(line for crate in CRATES if crate in sys.argv[2:] or not sys.argv[2:] for line in listed(crate)))
