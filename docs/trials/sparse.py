#!/usr/bin/python3
"""Measures the memory and the time of commands on files of which nearly all is dead space, or one free record.

Wanted: python3-tdb and GNU time. Usage: sparse.py PROGRAM [MIB [RUNS]]
"""

import os, shutil, subprocess, sys, tempfile

import tdb

PROGRAM = os.path.abspath(sys.argv[1])
MIB = int(sys.argv[2]) if len(sys.argv) > 2 else 64
RUNS = int(sys.argv[3]) if len(sys.argv) > 3 else 5
COMMANDS = {
    "check": ["tool", "f.tdb", "check"],
    "show": ["tool", "f.tdb", "show", "first"],
    "store": ["tool", "f.tdb", "store", "first", "other"],
    "dump": ["dump", "f.tdb"],
    "backup": ["backup", "f.tdb"],
}


def small():
    made = tdb.Tdb("f.tdb", 0, tdb.DEFAULT, os.O_RDWR | os.O_CREAT, 0o600)
    made.store(b"first", b"value")
    return made


def dead_at_the_end():
    small().close()
    os.truncate("f.tdb", MIB << 20)


def dead_in_the_middle():
    dead_at_the_end()
    made = tdb.Tdb("f.tdb", 0, tdb.DEFAULT, os.O_RDWR, 0o600)
    made.store(b"last", b"v" * 20000)
    made.close()


def one_free_record():
    made = small()
    made.store(b"long", b"\0" * (MIB << 20))
    made.delete(b"long")
    made.close()


FILES = {
    "no dead space, 8 KiB": lambda: small().close(),
    "%d MiB of zeros behind the records" % MIB: dead_at_the_end,
    "%d MiB of zeros between two records" % MIB: dead_in_the_middle,
    "a free record of %d MiB" % MIB: one_free_record,
}


def measured(words):
    """The answer of a run, its memory in KiB, and its processor's time and its time in seconds."""
    ran = subprocess.run(["time", "-o", "used", "-f", "%M %U %S %e", PROGRAM, *words], capture_output=True, text=True)
    memory, *seconds = open("used").read().split()
    user, system, spent = map(float, seconds)
    return ran.stdout.strip().split("\n")[-1][:30], int(memory), user + system, spent


def main():
    os.chdir(tempfile.mkdtemp(prefix="sparse"))
    print("| File | Command | Answer | Memory | Processor's time | Time |\n|---|---|---|---|---|---|")
    for file, make in FILES.items():
        for name in os.listdir("."):
            os.unlink(name)
        make()
        subprocess.run(["cat", "f.tdb"], stdout=subprocess.DEVNULL)
        for command, words in COMMANDS.items():
            runs = [measured(words) for _ in range(RUNS)]
            answer, memory = runs[0][0], max(run[1] for run in runs)
            processor, spent = min(run[2] for run in runs), min(run[3] for run in runs)
            print("| %s | %s | `%s` | %.1f MiB | %.2f s | %.2f s |" %
                  (file, command, answer, memory / 1024, processor, spent))
    shutil.rmtree(os.getcwd())


main()
