#!/usr/bin/env python3
"""Makes docs/DEFINITIONS.md of the comments that stand before the public definitions in crates/*/specs.

    docs/definitions.py            writes the file
    docs/definitions.py --check    tells where the file isn't what this script makes, and exits with 1 then
"""

import difflib
import re
import sys
from pathlib import Path

ROOT = Path(__file__).resolve().parent.parent
CRATES = ROOT / "crates"
TARGET = ROOT / "docs" / "DEFINITIONS.md"
WIDTH = 118

FRONT = """# The definitions, in words

This file is made by `docs/definitions.py` of the comments in `crates/*/specs`: change those, and run the script.

Each section is a crate, from the ground upwards, and each part of it a file of definitions, in the order in which the
crate lists them. An image is a list of bytes, the whole of a file; a place is an offset in it. Numbers don't wrap, but
in the hashes. What the bytes mean is FORMAT.md's, what is proved is THEOREM.md's, and the words that are used
throughout are in the glossary of ARCHITECTURE.md.
"""

DEFINITION = re.compile(r"^(?:(?:abbrev|unfoldable) )?pub (?:(record|data) )?([^\s:(){}]+)")
MODULE = re.compile(r"^pub mod (\S+)")
MARKER = re.compile(r"^(?:[-+*#>|]+|\d+[.)])$")


def crates_in_order():
    """The folders of the crates: first those that crates.txt lists, in its order, then all others by name."""
    listed = [line.split(":")[0] for line in (ROOT / "crates.txt").read_text().splitlines() if re.match(r"\w+:", line)]
    found = {folder.name: folder for folder in sorted(CRATES.iterdir()) if folder.is_dir()}
    names = [name for name in listed if name in found] + [name for name in found if name not in listed]
    return [found[name] for name in names if not name.endswith("_tests")]


def files_in_order(specs):
    """The files of definitions: as Lib.antt and the files of folders list them, and then those that nothing lists."""
    order = []

    def follow(listing, folder):
        for line in listing.read_text().splitlines():
            listed = MODULE.match(line)
            if not listed:
                continue
            file, within = folder / (listed.group(1) + ".antt"), folder / listed.group(1)
            if file.is_file() and file not in order:
                order.append(file)
                follow(file, within)
            if (within / "Lib.antt").is_file():
                follow(within / "Lib.antt", within)

    if (specs / "Lib.antt").is_file():
        follow(specs / "Lib.antt", specs)
    rest = [file for file in sorted(specs.rglob("*.antt")) if file.name != "Lib.antt" and file not in order]
    return order + rest


def comment_above(lines, at):
    """The text of the `--` lines that end just above this line."""
    first = at
    while first > 0 and lines[first - 1].startswith("--"):
        first -= 1
    return " ".join(line[2:].strip() for line in lines[first:at])


def definitions_of(lines):
    """The public definitions in their order: names and comment. A comment is of all definitions up to the next one."""
    found = []
    for at, line in enumerate(lines):
        match = DEFINITION.match(line)
        if not match or MODULE.match(line):
            continue
        text = comment_above(lines, at)
        if found and not text:
            found[-1][0].append(match.group(2))
        else:
            found.append(([match.group(2)], text))
    return found


def head_of(lines):
    """The comment at the head of a file, up to what isn't one."""
    end = 0
    while end < len(lines) and lines[end].startswith("--"):
        end += 1
    if end < len(lines) and DEFINITION.match(lines[end]) and not MODULE.match(lines[end]):
        return ""
    return " ".join(line[2:].strip() for line in lines[:end])


def sentence_of(crate):
    """What the crate says of itself in the first lines of its code."""
    for name in ("lib.rt", "main.rt"):
        file = crate / "src" / name
        if file.is_file():
            front = [line[3:].strip() for line in file.read_text().splitlines() if line.startswith("//!")]
            return " ".join(front)
    return ""


def wrapped(text, indent=""):
    """The text in lines of at most WIDTH characters, none of which begins as a list or a heading does."""
    words = text.split()
    glued = []
    for word in words:
        if glued and (MARKER.match(word) or open_code(glued[-1])):
            glued[-1] += " " + word
        else:
            glued.append(word)
    lines, line = [], ""
    for word in glued:
        if line and len(line) + 1 + len(word) > WIDTH - len(indent):
            lines.append(line)
            line = word
        else:
            line = line + " " + word if line else word
    lines.append(line)
    return ("\n" + indent).join(lines)


def open_code(text):
    """A piece of code begins in this text and doesn't end in it."""
    return text.count("`") % 2 == 1


def as_sentence(text):
    """The text with a capital at its front and a stop at its end."""
    text = text[:1].upper() + text[1:] if re.match(r"[a-z]+[ ,]", text) and not re.match(r"[a-z] [^a-z]", text) else text
    return text if text.endswith((".", ":", "`.")) else text + "."


def part_of(file, specs):
    """The part of a section that one file is: its head, and its definitions."""
    lines = file.read_text().splitlines()
    entries = definitions_of(lines)
    if not entries:
        return ""
    title = ".".join(file.relative_to(specs).with_suffix("").parts)
    head = head_of(lines)
    text = ["### %s" % title, "", wrapped((as_sentence(head) + " " if head else "") + "(`%s`)" % file.relative_to(ROOT)), ""]
    for names, comment in entries:
        names = ", ".join("`%s`" % name for name in names)
        text.append("- " + wrapped("**%s**%s" % (names, ": " + as_sentence(comment) if comment else ""), "  "))
    return "\n".join(text) + "\n"


def document():
    """The whole text."""
    sections, names = [], []
    for crate in crates_in_order():
        parts = [part for part in (part_of(file, crate / "specs") for file in files_in_order(crate / "specs")) if part]
        if parts:
            names.append(crate.name)
            sections.append("\n".join(["## %s" % crate.name, "", wrapped(sentence_of(crate)), ""] + parts))
    content = wrapped(", ".join("[`%s`](#%s)" % (name, name) for name in names) + ".")
    return "\n".join([FRONT, content, ""] + sections)


def main():
    text = document()
    if sys.argv[1:] == ["--check"]:
        old = TARGET.read_text() if TARGET.is_file() else ""
        if old == text:
            return 0
        diff = list(difflib.unified_diff(old.splitlines(), text.splitlines(), "docs/DEFINITIONS.md", "made anew", "", "", 0, ""))
        added = sum(1 for line in diff[2:] if line.startswith("+"))
        gone = sum(1 for line in diff[2:] if line.startswith("-"))
        print("docs/DEFINITIONS.md isn't what docs/definitions.py makes: %d lines more, %d lines gone" % (added, gone))
        print("\n".join(line[:160] for line in diff[:20]))
        return 1
    if sys.argv[1:]:
        print(__doc__.strip(), file=sys.stderr)
        return 2
    TARGET.write_text(text)
    return 0


if __name__ == "__main__":
    sys.exit(main())
