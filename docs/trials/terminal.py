#!/usr/bin/env python3
"""Tries a session of the program at a pseudo-terminal, and what it tells a person who asks for help.

usage: terminal.py PROGRAM

In a session standard input is a pseudo-terminal, on which a line is typed once the prompt stands on standard error.
What the program prints on each stream is compared byte for byte.

Prints each difference, and 'N passed, M failed' on its last line. Exits with 1 where something failed.
"""

import os
import pty
import re
import select
import subprocess
import sys
import tempfile
import termios
import time

SECONDS = 60
PROMPT = b"tdb> "
USAGE = b"usage: tdb COMMAND [OPTIONS] FILE [WORDS]\n"
UNKNOWN = b"tdb: no command; 'help' lists the commands\n"
ENDS = b"\x04"

# Rows of a session: what is typed, what is printed, and what is told behind the prompt.
EMPTY = [
    (b"\n", b"end\n", b""),
    (b"1\n", b"end\n", b""),
    (b"q\n", b"", b""),
]
MISTAKES = [
    (b"store a 1\n", b"ok\n", b""),
    (b"shwo a\n", b"", b"tdb: no command; did you mean show? 'help' lists the commands\n"),
    (b"show a\n", b'data(1) = "1"\n', b""),
    (b"show\n", b"", b"tdb: it is written show KEY\n"),
    (b"show a b\n", b"", b"tdb: it is written show KEY\n"),
    (b"create\n", b"", UNKNOWN),
    (b"\xff\xfe\n", b"", UNKNOWN),
    (b"frobnicate\n", b"", UNKNOWN),
    (b"store b 2\n", b"ok\n", b""),
    (b"first\n", b'key(1) = "a" data(1) = "1"\n', b""),
    (b"\n", b'key(1) = "b" data(1) = "2"\n', b""),
    (b"n\n", b"end\n", b""),
    (b"  1 \n", b'key(1) = "a" data(1) = "1"\n', b""),
    (b"n n\n", b"", UNKNOWN),
    (b"quit\n", b"", b""),
]
ENDED = [
    (b"check\n", b"number 0\n", b""),
    (ENDS, b"", b"\n"),
]
CUT = [
    (b"check" + ENDS + ENDS + ENDS, b"number 0\n", b"\n"),
]
AHEAD = [
    (b"store a 1\nstore b 2\nq\n", b"ok\nok\n", PROMPT + PROMPT),
]

# Words, and what is to stand in what a person is told beside the usage line.
HELPS = [
    ([], ["tdb tool FILE", "tdb dump FILE", "tdb restore FILE", "tdb backup", "tdb turns", "tdb gen", "man tdb"]),
    (["--help"], ["tdb dump FILE", "man tdb"]),
    (["-h"], ["tdb dump FILE", "man tdb"]),
    (["help"], ["tdb dump FILE", "man tdb"]),
    (["help", "tool"], ["man tdb"]),
    (["dump", "--help"], ["tdb dump FILE", "man tdb"]),
    (["tool", "--help"], ["show KEY", "store KEY DATA", "transaction_start", "quit", "man tdb-tool"]),
    (["--version"], ["tdb 0.1", "rattle-kit"]),
]

# Words that ask for nothing, and what is told of them.
UNASKED = [
    (["tool"], b"tdb: the words ask for nothing: see tdb tool --help\n"),
    (["frobnicate", "x"], b"tdb: frobnicate is no command: see tdb --help\n"),
    (["tool", "f.tdb", "shows", "a"], b"tdb: shows is no command: see tdb tool --help\n"),
    (["tool", "f.tdb", "show"], b"tdb: the words ask for nothing: see tdb tool --help\n"),
    (["tool", "f.tdb", "create", "x"], b"tdb: the words ask for nothing: see tdb tool --help\n"),
    (["tool", "--limit", "4096", "f.tdb", "shows"], b"tdb: the words ask for nothing: see tdb tool --help\n"),
    (["--version", "x"], b"tdb: --version is no command: see tdb --help\n"),
    (["dump", "-x", "f.tdb"], b"tdb: the words ask for nothing: see tdb --help\n"),
]


def no_echo(slave):
    """Has the terminal show nothing of what is typed."""
    settings = termios.tcgetattr(slave)
    settings[3] &= ~termios.ECHO
    termios.tcsetattr(slave, termios.TCSANOW, settings)


def read_until(stream, told, count):
    """Reads the stream until so many bytes were told, or it ends."""
    end = time.monotonic() + SECONDS
    while len(told) < count and time.monotonic() < end:
        if select.select([stream], [], [], 0.1)[0]:
            piece = os.read(stream.fileno(), 65536)
            if not piece:
                break
            told += piece
    return told


def talk(program, folder, rows):
    """What a session prints and tells, and its status, where each row is typed behind its prompt."""
    master, slave = pty.openpty()
    no_echo(slave)
    process = subprocess.Popen(
        [program, "tool", "f.tdb"], cwd=folder, stdin=slave, stdout=subprocess.PIPE, stderr=subprocess.PIPE
    )
    os.close(slave)
    told, due = b"", 0
    for typed, _printed, answer in rows:
        due += len(PROMPT)
        told = read_until(process.stderr, told, due)
        os.write(master, typed)
        due += len(answer)
    try:
        printed, rest = process.communicate(timeout=SECONDS)
    except subprocess.TimeoutExpired:
        process.kill()
        printed, rest = process.communicate()
    os.close(master)
    return printed, told + rest, process.returncode


def make(program, folder):
    """Makes an empty file."""
    subprocess.run([program, "tool", "f.tdb", "create"], cwd=folder, check=True, capture_output=True, timeout=SECONDS)


def session_differences(program, name, rows):
    """The differences of a session over an empty file."""
    with tempfile.TemporaryDirectory() as folder:
        make(program, folder)
        found = talk(program, folder, rows)
    printed = b"".join(row[1] for row in rows)
    told = b"".join(PROMPT + row[2] for row in rows)
    return differences(name, found, (printed, told, 0))


def differences(name, found, wanted):
    """The streams and the status that differ."""
    parts = zip(("standard output", "standard error", "status"), found, wanted)
    return [f"{name}: {part}: {here!r} in the place of {want!r}" for part, here, want in parts if here != want]


def run(program, folder, words, typed=b""):
    """What the program prints and tells, and its status, where its input is no terminal."""
    done = subprocess.run(
        [program, *words], cwd=folder, input=typed, capture_output=True, timeout=SECONDS
    )
    return done.stdout, done.stderr, done.returncode


def piped_differences(program):
    """The differences of sessions whose input is no terminal."""
    with tempfile.TemporaryDirectory() as folder:
        make(program, folder)
        session = ["tool", "f.tdb"]
        return (
            differences("pipe", run(program, folder, session, b"\ncheck\n"), (b"number 0\n", b"", 0))
            + differences("pipe, short", run(program, folder, session, b"check\n1\n"),
                          (b"number 0\ninput malformed at 6\n", b"", 7))
            + differences("pipe, help", run(program, folder, session, b"help\n"), (b"input malformed at 0\n", b"", 7))
        )


def help_differences(program, words, wanted):
    """The differences of what a person is told who asks by these words."""
    with tempfile.TemporaryDirectory() as folder:
        printed, told, status = run(program, folder, words)
    name = " ".join(["tdb", *words])
    missing = [text for text in wanted if not re.search(re.escape(text), told.decode())]
    found = differences(name, (printed, b"", status), (USAGE, b"", 2))
    return found + [f"{name}: {text!r} isn't told" for text in missing]


def unasked_differences(program, words, told):
    """The differences of words that ask for nothing, of which this is told."""
    with tempfile.TemporaryDirectory() as folder:
        found = run(program, folder, words)
    return differences(" ".join(["tdb", *words]), found, (USAGE, told, 2))


def page_differences(program):
    """The differences of the page that a session shows."""
    with tempfile.TemporaryDirectory() as folder:
        make(program, folder)
        _printed, page, _status = run(program, folder, ["tool", "--help"])
        page = page[page.find(b"Commands of a session") :]
        found = talk(program, folder, [(b"help\n", b"", page), (b"q\n", b"", b"")])
    return differences("help", found, (b"", PROMPT + page + PROMPT, 0))


def main():
    if len(sys.argv) != 2:
        print(__doc__, file=sys.stderr)
        return 2
    program = os.path.abspath(sys.argv[1])
    sessions = {"empty": EMPTY, "mistakes": MISTAKES, "ended": ENDED, "cut": CUT, "ahead": AHEAD}
    results = [session_differences(program, name, rows) for name, rows in sessions.items()]
    results += [help_differences(program, words, wanted) for words, wanted in HELPS]
    results += [unasked_differences(program, words, told) for words, told in UNASKED]
    results += [page_differences(program), piped_differences(program)]
    for line in sum(results, []):
        print(line)
    failed = sum(1 for found in results if found)
    print(f"{len(results) - failed} passed, {failed} failed")
    return 1 if failed else 0


if __name__ == "__main__":
    sys.exit(main())
