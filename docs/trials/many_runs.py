#!/usr/bin/python3
"""Starts many runs of the program at once, kills runs at random moments and behind each call, and prints what came.

Wanted: strace, for the kills behind each call that changes a file. Usage: many_runs.py PROGRAM [STORES [KILLS]]
"""

import os, random, re, shutil, subprocess, sys, tempfile, time

PROGRAM = os.path.abspath(sys.argv[1])
STORES = int(sys.argv[2]) if len(sys.argv) > 2 else 200
KILLS = int(sys.argv[3]) if len(sys.argv) > 3 else 100
CALLS = ("flock,ftruncate,pwrite64,fsync,link,linkat,unlink,unlinkat,rename,renameat,renameat2,chmod,fchmod,fchmodat,"
         "chown,fchown,fchownat,write")

# What is made: the words, whether the text of a dump is the input, the new file, and what stands there before.
MAKERS = {
    "create": (["tool", "new.tdb", "create"], False, "new.tdb", None),
    "restore": (["restore", "new.tdb"], True, "new.tdb", None),
    "gen": (["gen", "300", "1", "new.tdb"], False, "new.tdb", None),
    "backup": (["backup", "f.tdb"], False, "f.tdb.bak", None),
    "backup, over an old copy": (["backup", "f.tdb"], False, "f.tdb.bak", "old.tdb"),
    "backup -v, of a cut file": (["backup", "-v", "g.tdb"], False, "g.tdb", "cut.tdb"),
    "convert": (["convert", "f.tdb", "new.tdb", "7", "jenkins", "big"], False, "new.tdb", None),
    "repack, of a file with free records": (["tool", "g.tdb", "repack"], False, "g.tdb", "wide.tdb"),
}

# What a whole run makes, by maker.
WHOLE = {}


def run(*words, data=None):
    return subprocess.run([PROGRAM, *words], input=data, capture_output=True)


def stores_at_once():
    run("tool", "f.tdb", "create")
    runs = [subprocess.Popen([PROGRAM, "tool", "f.tdb", "store", "k%d" % n, "v"], stdout=subprocess.PIPE,
                             stderr=subprocess.PIPE) for n in range(STORES)]
    answers = {}
    for started in runs:
        out, err = started.communicate()
        answers[(out, err)] = answers.get((out, err), 0) + 1
    print("%d stores at once:" % STORES, answers, run("tool", "f.tdb", "check").stdout)


def set_up(maker):
    """The folder as it is before the run, and its input."""
    _, has_input, file, before = MAKERS[maker]
    for name in set(os.listdir(".")) - {"f.tdb", "old.tdb", "cut.tdb", "wide.tdb", "g.tdb.bak", "dump", "trace"}:
        os.unlink(name)
    if before:
        shutil.copy(before, file)
    return open("dump" if has_input else os.devnull, "rb")


def state(maker):
    """What stands at the name of the new file: as it was before the run, whole, or something else."""
    _, _, file, before = MAKERS[maker]
    if not os.path.exists(file):
        return "no file"
    if before and open(file, "rb").read() == open(before, "rb").read():
        return "as before"
    dumped = run("dump", file)
    is_whole = dumped.returncode == 0 and dumped.stdout == WHOLE[maker]
    return "whole" if is_whole else "DAMAGED: " + str(dumped.stdout[:40])


def after(maker, traced=()):
    """What a run leaves in the folder."""
    with set_up(maker) as source:
        subprocess.run([*traced, PROGRAM, *MAKERS[maker][0]], stdin=source, capture_output=True)
    return sorted(os.listdir("."))


def tried(maker, kills):
    """Counts what is found after each of the kills, and what is left in the folder once the words were run again."""
    seen, left = {}, {}
    whole = after(maker)
    for kill in kills:
        with set_up(maker) as source:
            kill(source)
        found = state(maker)
        seen[found] = seen.get(found, 0) + 1
        with open("dump", "rb") as source:
            subprocess.run([PROGRAM, *MAKERS[maker][0]], stdin=source, capture_output=True)
        if state(maker) != "whole":
            seen["NOT WHOLE after the next run"] = seen.get("NOT WHOLE after the next run", 0) + 1
        for name in set(os.listdir(".")) - set(whole):
            left[name] = left.get(name, 0) + 1
    found = ", ".join("%s %d" % pair for pair in sorted(seen.items()))
    return "%s; left after the next run: %s" % (found, left or "nothing")


def at_random(words, span):
    """Kills the run at a moment of this span."""
    def kill(source):
        started = subprocess.Popen([PROGRAM, *words], stdin=source, stdout=subprocess.DEVNULL,
                                   stderr=subprocess.DEVNULL)
        time.sleep(random.uniform(0, span * 1.2))
        started.kill()
        started.wait()
    return kill


def behind_call(words, name, number):
    """Kills the run behind its call of this name with this number, counted from 1."""
    def kill(source):
        traced = ["strace", "-f", "-qq", "-o", "trace", "-e", "inject=%s:signal=KILL:when=%d" % (name, number)]
        subprocess.run([*traced, PROGRAM, *words], stdin=source, capture_output=True)
    return kill


def calls_of(maker):
    """The calls of a run that change a file: the name of each, and its number among those of the name."""
    after(maker, ["strace", "-f", "-qq", "-o", "trace", "-e", "trace=" + CALLS])
    names = [line.split()[1].split("(")[0] for line in open("trace") if ") = " in re.sub(" +", " ", line)]
    return [(name, names[:place].count(name) + 1) for place, name in enumerate(names)]


def main():
    folder = tempfile.mkdtemp(prefix="runs")
    os.chdir(folder)
    stores_at_once()
    open("dump", "wb").write(run("dump", "f.tdb").stdout)
    run("tool", "old.tdb", "create")
    shutil.copy("f.tdb", "g.tdb.bak")
    shutil.copy("f.tdb", "cut.tdb")
    os.truncate("cut.tdb", 4000)
    shutil.copy("f.tdb", "wide.tdb")
    for n in range(0, STORES, 3):
        run("tool", "wide.tdb", "delete", "k%d" % n)
    for maker, (words, _, file, _) in MAKERS.items():
        after(maker)
        WHOLE[maker] = run("dump", file).stdout
        start = time.time()
        after(maker)
        span = time.time() - start
        print(maker, "killed at random:", tried(maker, [at_random(words, span)] * KILLS), flush=True)
        behind = [behind_call(words, *call) for call in calls_of(maker)]
        print(maker, "killed behind each call:", tried(maker, behind), flush=True)
    shutil.rmtree(folder)


main()
