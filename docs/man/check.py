#!/usr/bin/env python3
"""Checks the manual pages of this folder and the README against the built program and the definitions.

usage: check.py PROGRAM

- The examples are run: in the literal blocks of the pages, and in the indented blocks of the README, that begin with a
  line '$ COMMAND'. Lines '> TEXT' behind it belong to the command, all others up to the next '$ ' are what it prints,
  on both streams, byte for byte. The examples of a page run one after the other in a new folder.
- Every text that the program can print, as the definitions in crates/ say it, stands in tdb.1 or tdb-refusals.7.
- Every command, word and option that the definitions know stands in its page, and those of the command line also in the
  completion.
- The README has at most 120 lines. Where mandoc is at hand, it has no warning of a page.

Prints each difference, and 'N passed, M failed' on its last line. Exits with 1 where something failed.
"""

import os
import re
import shutil
import subprocess
import sys
import tempfile
from pathlib import Path

PAGES = Path(__file__).resolve().parent
TOP = PAGES.parent.parent
ALL_TEXTS = ["tdb.1", "tdb-refusals.7"]
SECONDS = 60
README_LINES = 120

# The escapes of mdoc that an example may have, and what each stands for.
ESCAPES = {r"\e": "\\", r"\-": "-", r"\&": "", r"\(aq": "'", r"\(dq": '"', r"\(mu": "x"}
ESCAPE = re.compile(r"\\\(..|\\.")

# The macros of mdoc that the pages use within a line.
MACROS = set(
    "Ar Bd Bl Bo Bc Cm Ed El Em Ev Fl It Li Nd Nm No Ns Oc Oo Op Pa Pp Pq Ql Sh Sq Ss Sy Ta Xc Xo Xr Dd Dt Os".split()
)
PUNCTUATION = set(", . ; : ( ) [ ] | ? !".split())

# The definitions whose words are printed, and what stands before such a word in a page.
PRINTED = [
    ("fault_text", "header "),
    ("what_text", "corrupt "),
    ("reply_text", ""),
    ("turn_text", ""),
    ("line_text", ""),
    ("answer", ""),
    ("notice_words", ""),
    ("summary_text", ""),
    ("restoring_line", ""),
    ("count_line", ""),
]

# The definitions of the words that may be given, and the page that says what each does.
GIVEN = [
    ("commands", "tdb.1"),
    ("options_of", "tdb.1"),
    ("tools", "tdb-tool.1"),
    ("hashes", "tdb-tool.1"),
    ("orders", "tdb-tool.1"),
    ("bare_orders", "tdb-tool.1"),
    ("key_orders", "tdb-tool.1"),
    ("value_orders", "tdb-tool.1"),
    ("bare_plays", "tdb-turns.1"),
    ("opener_plays", "tdb-turns.1"),
    ("command_plays", "tdb-turns.1"),
    ("bare_commands", "tdb-turns.1"),
    ("group_commands", "tdb-turns.1"),
    ("holding_commands", "tdb-turns.1"),
    ("walking_commands", "tdb-turns.1"),
    ("key_commands", "tdb-turns.1"),
    ("value_commands", "tdb-turns.1"),
]
# The crates that tell something on standard error.
TELLING = ["tdb", "tdb_files", "tdb_terminal"]

COMPLETED = {"commands", "options_of", "tools", "hashes", "orders"}


class Tally:
    """How many checks passed and failed."""

    def __init__(self):
        self.passed = 0
        self.failed = 0

    def check(self, holds, what):
        if holds:
            self.passed += 1
        else:
            self.failed += 1
            print("FAILED " + what)


def unescaped(text):
    """The text that mdoc source stands for."""
    return ESCAPE.sub(lambda found: ESCAPES.get(found.group(), found.group()), text)


def literal_blocks(lines):
    """The literal blocks of a page, each a list of (line number, text)."""
    block = None
    for number, line in enumerate(lines, 1):
        if line.startswith(".Bd -literal"):
            block = []
        elif line.startswith(".Ed") and block is not None:
            yield block
            block = None
        elif block is not None:
            block.append((number, unescaped(line)))


def indented_blocks(lines):
    """The indented blocks of the README."""
    block = []
    for number, line in enumerate(lines + [""], 1):
        if line.startswith("    "):
            block.append((number, line[4:]))
        elif block:
            yield block
            block = []


def examples_in(blocks):
    """The commands of the blocks that begin with one: (line number, command, what it prints)."""
    for block in blocks:
        if not block[0][1].startswith("$ "):
            continue
        example = None
        for number, line in block:
            if line.startswith("$ "):
                if example:
                    yield example
                example = (number, line[2:] + "\n", "")
            elif line.startswith("> ") and not example[2]:
                example = (example[0], example[1] + line[2:] + "\n", "")
            else:
                example = (example[0], example[1], example[2] + line + "\n")
        yield example


def run_examples(tally, path, program):
    """Runs the examples of a page in a new folder."""
    lines = path.read_text(encoding="utf-8").split("\n")
    blocks = indented_blocks(lines[:-1]) if path.suffix == ".md" else literal_blocks(lines)
    examples = list(examples_in(blocks))
    tally.check(examples, f"{path.name}: it has no example")
    with tempfile.TemporaryDirectory() as above:
        tools, folder = Path(above, "bin"), Path(above, "work")
        tools.mkdir()
        folder.mkdir()
        Path(tools, "tdb").symlink_to(program)
        env = {"PATH": f"{tools}:{os.environ.get('PATH', '')}", "LC_ALL": "C"}
        status = 0
        for number, command, wanted in examples:
            try:
                ran = subprocess.run(
                    ["bash", "-c", f"(exit {status})\n{command}"],
                    cwd=folder,
                    env=env,
                    stdin=subprocess.DEVNULL,
                    stdout=subprocess.PIPE,
                    stderr=subprocess.STDOUT,
                    timeout=SECONDS,
                )
            except subprocess.TimeoutExpired:
                tally.check(False, f"{path.name}:{number}: no end after {SECONDS} seconds: {command}")
                continue
            status = ran.returncode
            found = ran.stdout
            tally.check(
                found == wanted.encode(),
                f"{path.name}:{number}: $ {command}--- wanted\n{wanted}--- found\n{found.decode(errors='replace')}---",
            )


def plain(path):
    """The words of a page, with options as they are given, and one space between them."""
    words = []
    for line in path.read_text(encoding="utf-8").split("\n"):
        if not line.startswith("."):
            words += unescaped(line).split()
            continue
        in_option = False
        for word in line[1:].split():
            if word in MACROS:
                in_option = word == "Fl"
                continue
            word = unescaped(word)
            words.append("-" + word if in_option and word not in PUNCTUATION else word)
    return " ".join(words)


def has_words(text, words):
    """Whether these words stand in the text, not as parts of others."""
    pattern = r"\s".join(re.escape(word) for word in words.split())
    return re.search(r"(?<![\w-])" + pattern + r"(?![\w-])", text) is not None


def definition_of(name, sources):
    """The lines of a definition in a specification, and none where there isn't one."""
    head = re.compile(rf"^(?:abbrev|unfoldable) pub {name} :", re.M)
    for source in sources:
        found = head.search(source)
        if found:
            return source[found.start() :].split("\n\n")[0]
    return ""


def codes_in(definition):
    """The texts of a definition that have a letter."""
    texts = re.findall(r'codes "((?:[^"\\]|\\.)*)"', definition)
    return [text.replace("\\n", "").strip() for text in texts if re.search("[A-Za-z]", text.replace("\\n", ""))]


def check_texts(tally, crates):
    """Every text that can be printed, and every word that may be given, stands in a page."""
    specs = [path.read_text(encoding="utf-8") for path in sorted(crates.glob("*/specs/**/*.antt"))]
    pages = {path.name: plain(path) for path in sorted(PAGES.glob("*.[17]"))}
    everywhere = " ".join(pages[name] for name in ALL_TEXTS)
    completion = (TOP / "completion" / "tdb.bash").read_text(encoding="utf-8")
    for name, before in PRINTED:
        texts = codes_in(definition_of(name, specs))
        tally.check(texts, f"no definition {name} in the specifications")
        for text in texts:
            found = has_words(everywhere, before + text)
            tally.check(found, f"'{before}{text}' of {name} isn't in tdb.1 or tdb-refusals.7")
    for name, page in GIVEN:
        words = codes_in(definition_of(name, specs))
        tally.check(words, f"no definition {name} in the specifications")
        for word in words:
            tally.check(has_words(pages[page], word), f"'{word}' of {name} isn't in {page}")
            if name in COMPLETED:
                tally.check(has_words(completion, word), f"'{word}' of {name} isn't in the completion")
    check_reasons(tally, crates, pages["tdb-refusals.7"], everywhere)


def pieces_of(text):
    """The parts of a text between what is filled in, without punctuation at the ends."""
    parts = (part.strip(" :;?'") for part in re.split(r"\{[^}]*\}|\\n", text))
    return [part for part in parts if re.search("[A-Za-z]", part)]


def check_told(tally, crates, everywhere):
    """Every line that begins with the name of the program, and is told on standard error, stands in a page."""
    told = []
    for crate in TELLING:
        for path in sorted((crates / crate / "src").glob("**/*.rt")):
            if path.name != "tests.rt":
                lines = re.findall(r'"(tdb: (?:[^"\\{\n]|\\.|\{[^}]*\})*)"', path.read_text(encoding="utf-8"))
                told += [piece for line in lines for piece in pieces_of(line[len("tdb: ") :])]
    tally.check(told, "no line on standard error in the sources")
    for text in told:
        tally.check(has_words(everywhere, text), f"'tdb: .. {text}' isn't in tdb.1 or tdb-refusals.7")


def check_reasons(tally, crates, page, everywhere):
    """Every reason that is told on standard error stands in the page of refusals."""
    reasons = []
    for path in sorted(crates.glob("*/src/**/*.rt")):
        source = path.read_text(encoding="utf-8")
        found = re.search(r"\nenum Reason |\npub enum Reason ", source)
        if found:
            for text in re.findall(r'#\[error\("([^"]+)"\)\]', source[found.start() :].split("\n}\n")[0]):
                reasons += pieces_of(text)
    tally.check(reasons, "no enum Reason in the sources")
    for reason in reasons:
        tally.check(has_words(page, reason), f"the reason '{reason}' isn't in tdb-refusals.7")
    check_told(tally, crates, everywhere)
    main = (crates / "tdb" / "src" / "main.rt").read_text(encoding="utf-8")
    told = re.findall(r'eprintln!\([^;]*; "tdb: ([^{"]+): ', main)
    told += re.findall(r'const LOG_VARIABLE: &str = "([^"]+)"', main)
    tally.check(told, "no line on standard error in the program")
    for text in told:
        tally.check(has_words(page, text), f"'tdb: {text}' isn't in tdb-refusals.7")


def check_form(tally):
    """The README is short, no line is too long, and mandoc has no warning."""
    readme = (TOP / "README.md").read_text(encoding="utf-8").split("\n")[:-1]
    tally.check(len(readme) <= README_LINES, f"README.md has {len(readme)} lines, more than {README_LINES}")
    for path in [TOP / "README.md", *sorted(PAGES.glob("*.[17]"))]:
        for number, line in enumerate(path.read_text(encoding="utf-8").split("\n"), 1):
            if len(line) > 120 and not line.startswith("|"):
                tally.check(False, f"{path.name}:{number}: {len(line)} characters")
    if shutil.which("mandoc"):
        for path in sorted(PAGES.glob("*.[17]")):
            ran = subprocess.run(["mandoc", "-Tlint", "-Wwarning", path], capture_output=True, text=True)
            tally.check(not ran.stdout + ran.stderr, f"{path.name}: {ran.stdout}{ran.stderr}")


def main():
    if len(sys.argv) != 2:
        print("usage: check.py PROGRAM", file=sys.stderr)
        return 2
    program = Path(sys.argv[1]).resolve()
    if not os.access(program, os.X_OK) or program.is_dir():
        print(f"check.py: {program} is no program", file=sys.stderr)
        return 2
    tally = Tally()
    for path in [TOP / "README.md", *sorted(PAGES.glob("*.[17]"))]:
        run_examples(tally, path, program)
    check_texts(tally, TOP / "crates")
    check_form(tally)
    print(f"{tally.passed} passed, {tally.failed} failed")
    return 1 if tally.failed else 0


if __name__ == "__main__":
    sys.exit(main())
