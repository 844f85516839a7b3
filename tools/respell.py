#!/usr/bin/env python3
"""Brings the names of this repository to the spelling of the installed Rattle.

usage: python3 tools/respell.py [--list]      at the top of a repository, once, after the kit's port.py

Functions, fields, constructors and lemmas are in snake case, types in camel case; in a lemma's name a dash stands
between two names of functions. Two crates that would have the name of a library of the kit get another one. With
--list nothing is written: the renamings are printed, and each file in which a new name stood already.
"""

import os
import re
import sys
from typing import Dict, Iterator, List, Set, Tuple

# A library of the kit has the old name.
CRATES = {"bytes": "octets", "hex": "hex_digits"}

# Words of std that lemmas are named after.
WORDS = set(
    "length take drop set get_or replicate append map reverse sum cons nil add sub mul div mod pow min max zero suc "
    "one eq le lt ltb leb eqb cond bits number_from_digits joined".split()
)

NAME = r"[^\s(){}:.,;◌]+"
SIGNED = re.compile(r"^(\s*)(?:pub |abbrev |unfoldable )*(?:(record|data) )?(" + NAME + r") (?:.* )?:(?!:)(.*)$")
KEYWORDS = {"use", "module", "unfolding", "mod", "ruleset", "infix", "infixl", "infixr", "|", "∙", "let", "pub", "--"}
TOKEN = re.compile(r"(?<![\w'-])([A-Za-z][\w']*(?:-[\w']+)+)(?![\w'-])")


def sources(kinds: Tuple[str, ...]) -> Iterator[str]:
    for folder, folders, files in os.walk("crates"):
        folders[:] = sorted(f for f in folders if f != "out")
        for file in sorted(files):
            if file.endswith(kinds):
                yield os.path.join(folder, file)


def text_of(path: str) -> str:
    with open(path, encoding="utf-8") as file:
        return file.read()


class Names:
    """What the repository declares: functions of specs/ by crate, and everything with a dash."""

    def __init__(self) -> None:
        self.functions: Dict[str, Set[str]] = {}
        self.dashed: Dict[str, bool] = {}  # the name, and whether a file of specs/ has it
        self.members: Set[str] = set()
        for path in sources((".antt",)):
            self.read(path)

    def read(self, path: str) -> None:
        crate = path.split(os.sep)[1]
        in_specs = os.sep + "specs" + os.sep in path
        within = False
        for line in text_of(path).splitlines():
            found = SIGNED.match(line)
            if not line.startswith(" "):
                within = re.match(r"(pub )?(record|data) ", line) is not None
            if not found or found.group(3) in KEYWORDS or line.lstrip().startswith(("use ", "pub use ", "--", "let ")):
                continue
            indent, _kind, name, rest = found.groups()
            if "goal." in rest or name.startswith("("):
                continue
            if not re.fullmatch(r"[A-Za-z][\w'-]*", name):
                continue
            if in_specs and not indent:
                self.functions.setdefault(crate, set()).add(name)
            if "-" in name:
                self.dashed[name] = self.dashed.get(name, False) or in_specs
                if indent and within:
                    self.members.add(name)


def camel(name: str) -> str:
    return "".join(part[0].upper() + part[1:] for part in name.split("-"))


def as_lemma(name: str, functions: Set[str]) -> str:
    """The parts that are names of functions are joined by dashes, plain words by underscores."""
    words = re.split(r"[-_]", name)
    parts: List[Tuple[str, bool]] = []
    while words:
        for n in range(len(words), 0, -1):
            part = "_".join(words[:n])
            if part in functions or n == 1:
                parts.append((part, part in functions))
                words = words[n:]
                break
    made = parts[0][0]
    for (_, before), (part, named) in zip(parts, parts[1:]):
        made += ("-" if before and named else "_") + part
    return made


def renamings(names: Names) -> Dict[str, str]:
    functions = {f.replace("-", "_") for of_crate in names.functions.values() for f in of_crate} | WORDS
    to: Dict[str, str] = {}
    for name, in_specs in sorted(names.dashed.items()):
        if name[0].isupper():
            to[name] = camel(name)
        elif in_specs:
            to[name] = name.replace("-", "_")
        else:
            to[name] = as_lemma(name, functions)
    return {old: new for old, new in to.items() if old != new}


def respelled(text: str, to: Dict[str, str], members: Set[str]) -> str:
    def swap(found: "re.Match[str]") -> str:
        name = found.group(1)
        behind_dot = found.start() > 0 and found.string[found.start() - 1] == "."
        if behind_dot and name not in members:
            return name
        return to.get(name, name)

    return TOKEN.sub(swap, text)


def outside_comments(text: str, mark: str, to: Dict[str, str], members: Set[str]) -> str:
    lines = []
    for line in text.split("\n"):
        at = line.find(mark)
        while at > 0 and mark == "--" and line[at - 1] not in " \t":
            at = line.find(mark, at + 1)
        code, comment = (line, "") if at < 0 else (line[:at], line[at:])
        pieces = re.split(r'("(?:[^"\\]|\\.)*")', code)
        lines.append("".join(p if p.startswith('"') else respelled(p, to, members) for p in pieces) + comment)
    return "\n".join(lines)


def crates_renamed(path: str, text: str) -> str:
    for old, new in CRATES.items():
        text = re.sub(r"\bRattle\." + old + r"\.", f"Rattle.{new}.", text)
        if path.endswith(".rt"):
            text = re.sub(r"(?<![\w:.])" + old + r"::", new + "::", text)
    return text


def rename_crates() -> None:
    for old, new in CRATES.items():
        if os.path.isdir(os.path.join("crates", old)):
            os.rename(os.path.join("crates", old), os.path.join("crates", new))
    lines = text_of("crates.txt").splitlines()
    renamed = [" ".join(CRATES.get(w.rstrip(":"), w.rstrip(":")) + ":" * w.endswith(":") for w in line.split(" ")) for line in lines]
    with open("crates.txt", "w", encoding="utf-8") as file:
        file.write("\n".join(renamed) + "\n")


def main() -> None:
    names = Names()
    to = renamings(names)
    news = {new: old for old, new in to.items()}
    if "--list" in sys.argv:
        for old, new in to.items():
            print(f"{old} -> {new}" + (" (member)" if old in names.members else ""))
        for path in sources((".antt", ".rt")):
            text = text_of(path)
            for word in set(re.findall(r"[A-Za-z][\w'-]*", text)):
                if word in news and re.search(r"(?<![\w'-])" + re.escape(news[word]) + r"(?![\w'-])", text):
                    print(f"both: {path}: {word}")
            for found in re.finditer(r"\.([A-Za-z][\w']*(?:-[\w']+)+)", text):
                if found.group(1) in to and found.group(1) not in names.members:
                    print(f"behind a dot: {path}: {found.group(0)}")
        return
    for path in sources((".antt", ".rt")):
        text = text_of(path)
        mark = "--" if path.endswith(".antt") else "//"
        made = crates_renamed(path, outside_comments(text, mark, to, names.members))
        if made != text:
            with open(path, "w", encoding="utf-8") as file:
                file.write(made)
    rename_crates()


if __name__ == "__main__":
    main()
