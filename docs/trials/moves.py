#!/usr/bin/python3
"""Moves a key of one file into another by `tool f.tdb move`: stopped at random and behind each call that changes a
file, with each such call failing, with each limit near the room that is needed, and into the same file under another
name. Prints what came.

Wanted: python3-tdb, tdbtool and strace. Usage: moves.py PROGRAM [KILLS]
"""

import collections, os, random, re, shutil, subprocess, sys, tempfile, time

import tdb

PROGRAM = os.path.abspath(sys.argv[1])
KILLS = int(sys.argv[2]) if len(sys.argv) > 2 else 300
CHANGING = "flock,ftruncate,fallocate,pwrite64,pwritev,write,fsync,fdatasync"
FAILING = {"pwrite64": "EIO", "ftruncate": "ENOSPC", "fallocate": "ENOSPC", "fsync": "EIO", "fdatasync": "EIO"}
KEY = b"key250"
MOVE = ["tool", "f.tdb", "move", KEY.decode(), "g.tdb"]


def run(*words, before=()):
    return subprocess.run([*before, PROGRAM, *words], stdin=subprocess.DEVNULL, capture_output=True)


def content(name):
    with open(name, "rb") as file:
        return file.read()


def data(text):
    """The bytes of an escaped text of a dump."""
    return re.sub(rb"\\(..)", lambda found: bytes([int(found.group(1), 16)]), text)


def stock_pairs(name):
    """The pairs as the stock library reads a copy once it has opened it for writing, or what it says."""
    shutil.copy(name, "stock.tdb")
    try:
        held = tdb.Tdb("stock.tdb", 0, tdb.DEFAULT, os.O_RDWR, 0o600)
        found = {key: held[key] for key in held}
        held.close()
        return found
    except (OSError, RuntimeError) as error:
        return "stock: %s" % error


def own_pairs(name):
    """The pairs as the program reads a copy once it has opened it for writing, or what it says."""
    shutil.copy(name, "own.tdb")
    words = [PROGRAM, "tool", "own.tdb"]
    checked, _, dumped = subprocess.run(words, input=b"check\ndump\n", capture_output=True).stdout.partition(b"\n")
    if not checked.startswith(b"number "):
        return "own: %r" % checked
    found = re.findall(rb'\{\nkey\(\d+\) = "(.*)"\ndata\(\d+\) = "(.*)"\n\}\n', dumped)
    return {data(key): data(value) for key, value in found}


def is_sound(name):
    """Whether the check of the stock tool passes."""
    return b"integrity is OK" in subprocess.run(["tdbtool", name, "check"], capture_output=True).stdout


def make():
    """from.tdb and into.tdb, which have 100 keys in common, and what both hold before and once the key was moved."""
    for name, low, high, length in (("from.tdb", 200, 600, 40), ("into.tdb", 0, 300, 9)):
        made = tdb.Tdb(name, 0, tdb.DEFAULT, os.O_RDWR | os.O_CREAT, 0o600)
        for n in range(low, high):
            made.store(b"key%d" % n, b"%d" % n * length)
        made.close()
    first, second = stock_pairs("from.tdb"), stock_pairs("into.tdb")
    without = {key: value for key, value in first.items() if key != KEY}
    return (first, without), (second, {**second, KEY: first[KEY]})


def begin():
    shutil.copy("from.tdb", "f.tdb")
    shutil.copy("into.tdb", "g.tdb")


def which(pairs, maps):
    if isinstance(pairs, str):
        return pairs
    return "before" if pairs == maps[0] else "after" if pairs == maps[1] else "ANOTHER map"


def state(name, maps):
    """To which map both libraries open a file, and whether tdbtool's check of what the program opened passes. The file
    itself is left alone."""
    seen = {which(own_pairs(name), maps), which(stock_pairs(name), maps)}
    if not is_sound("own.tdb"):
        seen.add("NOT SOUND")
    return " and ".join(sorted(seen))


def stopped(maps, printed):
    """What is found after a stop, where this was printed up to it: FILE and FILE2, each before or after."""
    first, second = state("f.tdb", maps[0]), state("g.tdb", maps[1])
    found = "FILE %s, FILE2 %s" % (first, second)
    if b"ok" in printed and found != "FILE after, FILE2 after":
        found = "ok WAS PRINTED, " + found
    if first != "before" and second != "after":
        found = "THE KEY IS LOST, " + found
    again = run(*MOVE)
    wanted = (0, b"ok\n") if first == "before" else (1, b"noexist\n")
    if (again.returncode, again.stdout) != wanted:
        found += ", THE NEXT RUN: %d %r" % (again.returncode, again.stdout)
    if which(own_pairs("f.tdb"), maps[0]) != "after" or which(own_pairs("g.tdb"), maps[1]) != "after":
        found += ", NOT MOVED by the next run"
    return found


def calls():
    """The calls that change a file: the name of each, and its number among those of the name."""
    begin()
    run(*MOVE, before=["strace", "-f", "-qq", "-o", "trace", "-e", "trace=" + CHANGING])
    names = [line.split()[1].split("(")[0] for line in open("trace") if ") = " in re.sub(" +", " ", line)]
    return [(name, names[:place].count(name) + 1) for place, name in enumerate(names)]


def show(title, counts):
    print(title)
    for found, count in sorted(counts.items()):
        print("  %s: %d" % (found, count))
    sys.stdout.flush()


def stops(maps):
    counts, spans = collections.Counter(), []
    for _ in range(5):
        begin()
        start = time.time()
        run(*MOVE)
        spans.append(time.time() - start)
    for _ in range(KILLS):
        begin()
        started = subprocess.Popen([PROGRAM, *MOVE], stdout=subprocess.PIPE, stderr=subprocess.DEVNULL)
        time.sleep(random.uniform(0, min(spans) * 1.2))
        started.kill()
        counts[stopped(maps, started.communicate()[0])] += 1
    show("killed at random:", counts)
    counts.clear()
    for name, number in calls():
        begin()
        inject = "inject=%s:signal=KILL:when=%d" % (name, number)
        ran = run(*MOVE, before=["strace", "-f", "-qq", "-o", "trace", "-e", inject])
        counts[stopped(maps, ran.stdout)] += 1
    show("killed behind each call:", counts)


def failures(maps):
    counts = collections.Counter()
    for name, number in calls():
        if name not in FAILING:
            continue
        for when in (str(number), "%d+" % number):
            begin()
            inject = "inject=%s:error=%s:when=%s" % (name, FAILING[name], when)
            ran = run(*MOVE, before=["strace", "-f", "-qq", "-o", "trace", "-e", inject])
            answer = "%d %s" % (ran.returncode, ran.stdout.decode().strip())
            behind = " and all behind it" if "+" in when else ""
            counts["%s%s: %s, %s" % (name, behind, answer, stopped(maps, ran.stdout))] += 1
    show("failing calls:", counts)


def limits():
    counts, wrong = collections.Counter(), []
    begin()
    before = [stock_pairs(name) for name in ("from.tdb", "into.tdb")]
    run(*MOVE)
    sizes = [os.path.getsize(name) for name in ("from.tdb", "into.tdb", "f.tdb", "g.tdb")]
    near = {size + step for size in sizes for step in range(-64, 68, 4)}
    for limit in sorted(near | set(range(min(sizes), max(sizes) + 8192, 4096 // 3))):
        begin()
        ran = run("tool", "--limit", str(limit), *MOVE[1:])
        answer = ran.stdout.decode().strip()
        kind = answer.split(" ")[0]
        counts["%d %s" % (ran.returncode, kind)] += 1
        if kind != "ok" and [stock_pairs(name) for name in ("f.tdb", "g.tdb")] != before:
            wrong.append("%d: %s: a map was changed" % (limit, answer))
        if kind == "ok" and max(os.path.getsize("f.tdb"), os.path.getsize("g.tdb")) > limit:
            wrong.append("%d: ok: longer than the limit" % limit)
    show("limits:", counts)
    print("\n".join(wrong) or "  nothing else")


def same_file():
    """The other name is that of the same file: a second name, a symbolic link, another path."""
    begin()
    before = content("f.tdb")
    os.link("f.tdb", "second.tdb")
    os.symlink("f.tdb", "link.tdb")
    for name in ("second.tdb", "link.tdb", "./f.tdb", os.path.abspath("f.tdb")):
        ran = run("tool", "f.tdb", "move", KEY.decode(), name)
        changed = "" if content("f.tdb") == before else ", FILE WAS CHANGED"
        print("into %s: %d %r, %r%s" % (os.path.basename(name), ran.returncode, ran.stdout, ran.stderr, changed))


def main():
    os.chdir(tempfile.mkdtemp(prefix="moves"))
    maps = make()
    stops(maps)
    failures(maps)
    limits()
    same_file()
    shutil.rmtree(os.getcwd())


main()
