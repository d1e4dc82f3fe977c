#!/usr/bin/python3
"""Stores the pairs of one file into another by `convert --into`: each two files of FOLDER, with stops at random and
behind each call, with each call failing, and with each limit near the room that is needed. Prints what came.

Wanted: python3-tdb, tdbtool and strace. Usage: into.py PROGRAM FOLDER [KILLS]
"""

import collections, os, random, re, shutil, subprocess, sys, tempfile, time

import tdb

PROGRAM, FOLDER = os.path.abspath(sys.argv[1]), os.path.abspath(sys.argv[2])
KILLS = int(sys.argv[3]) if len(sys.argv) > 3 else 200
CHANGING = "flock,ftruncate,fallocate,pwrite64,pwritev,write,fsync,fdatasync"
FAILING = {"pwrite64": "EIO", "ftruncate": "ENOSPC", "fallocate": "ENOSPC", "fsync": "EIO", "fdatasync": "EIO"}
INTO = ["convert", "--into", "f.tdb", "g.tdb"]


def run(*words, before=()):
    return subprocess.run([*before, PROGRAM, *words], stdin=subprocess.DEVNULL, capture_output=True)


def content(name):
    with open(name, "rb") as file:
        return file.read()


def data(text):
    """The bytes of an escaped text of a dump."""
    return re.sub(rb"\\(..)", lambda found: bytes([int(found.group(1), 16)]), text)


def pairs_in(text):
    """The pairs of a dump, in its order."""
    found = re.findall(rb'\{\nkey\(\d+\) = "(.*)"\ndata\(\d+\) = "(.*)"\n\}\n', text)
    return [(data(key), data(value)) for key, value in found]


def traversed(name):
    """The pairs of a file in the order of the stock library's traversal, which is that of tdbdump."""
    held = tdb.Tdb(name, 0, tdb.DEFAULT, os.O_RDONLY, 0o600)
    found = [(key, held[key]) for key in held]
    held.close()
    return found


def stock_pairs(name):
    """The pairs as the stock library reads a copy once it has opened it for writing, or what it says."""
    shutil.copy(name, "stock.tdb")
    try:
        tdb.Tdb("stock.tdb", 0, tdb.DEFAULT, os.O_RDWR, 0o600).close()
        return traversed("stock.tdb")
    except (OSError, RuntimeError) as error:
        return "stock: %s" % error


def is_sound(name):
    """Whether the check of the stock tool passes."""
    return b"integrity is OK" in subprocess.run(["tdbtool", name, "check"], capture_output=True).stdout


def own_pairs(name):
    """The pairs as the program reads a copy once it has opened it for writing, or what it says."""
    shutil.copy(name, "own.tdb")
    words = [PROGRAM, "tool", "own.tdb"]
    checked, _, dumped = subprocess.run(words, input=b"check\ndump\n", capture_output=True).stdout.partition(b"\n")
    return pairs_in(dumped) if checked.startswith(b"number ") else "own: %r" % checked


def stock_merge(name, pairs):
    """The pairs of a copy of a file into which the stock library stores these in one transaction."""
    shutil.copy(name, "stock.tdb")
    held = tdb.Tdb("stock.tdb", 0, tdb.DEFAULT, os.O_RDWR, 0o600)
    held.transaction_start()
    for key, value in pairs:
        held.store(key, value)
    held.transaction_commit()
    held.close()
    return traversed("stock.tdb")


def each_two():
    """Each file of the folder into each, all keys and those with a prefix."""
    names = sorted(name for name in os.listdir(FOLDER) if name.endswith(".tdb"))
    counts, wrong = collections.Counter(), []
    found = {name: stock_pairs(os.path.join(FOLDER, name)) for name in names}
    for file in names:
        for new in names:
            for prefixed in (False, True):
                shutil.copy(os.path.join(FOLDER, file), "f.tdb")
                shutil.copy(os.path.join(FOLDER, new), "g.tdb")
                before, whole = content("f.tdb"), found[file]
                prefix = whole[len(whole) // 2][0][:2] if prefixed and whole else b""
                word = "".join("\\%02X" % byte for byte in prefix)
                chosen = [pair for pair in whole if pair[0].startswith(prefix)]
                ran = run("convert", "--into", *(["--prefix", word] if prefix else []), "f.tdb", "g.tdb")
                what = "%s into %s, prefix %r: %d %r" % (file, new, prefix, ran.returncode, ran.stdout)
                if content("f.tdb") != before:
                    wrong.append(what + ": FILE was changed")
                if ran.returncode:
                    counts[ran.stdout.decode().strip()] += 1
                    if content("g.tdb") != content(os.path.join(FOLDER, new)):
                        wrong.append(what + ": NEW was changed")
                    continue
                counts["ok"] += 1
                stock, own = stock_pairs("g.tdb"), own_pairs("g.tdb")
                merged = {**dict(found[new]), **dict(chosen)}
                if isinstance(stock, str) or dict(stock) != merged or len(stock) != len(merged) or own != stock:
                    wrong.append("%s: not what was merged: %s" % (what, stock if isinstance(stock, str) else ""))
                elif not is_sound("g.tdb"):
                    wrong.append(what + ": tdbtool's check of NEW fails")
                elif stock == stock_merge(os.path.join(FOLDER, new), chosen):
                    counts["in the order of the stock library"] += 1
                else:
                    counts["in another order"] += 1
                    print("  another order:", what)
    print("each two files:", dict(counts), flush=True)
    print("\n".join(wrong) or "  nothing else")


def pair(n, length):
    return b"key%d" % n, b"%d" % n * length


def make():
    """f.tdb and old.tdb, which have 200 keys in common."""
    for name, low, high, length in (("f.tdb", 200, 600, 40), ("old.tdb", 0, 400, 9)):
        made = tdb.Tdb(name, 0, tdb.DEFAULT, os.O_RDWR | os.O_CREAT, 0o600)
        for n in range(low, high):
            made.store(*pair(n, length))
        made.close()
    shutil.copy("old.tdb", "g.tdb")
    assert run(*INTO).returncode == 0
    return dict(stock_pairs("old.tdb")), dict(stock_pairs("g.tdb"))


def state(before, merged):
    """To which map both libraries open NEW."""
    seen = set()
    for read in (own_pairs, stock_pairs):
        pairs = read("g.tdb")
        if isinstance(pairs, str):
            seen.add(pairs)
        else:
            seen.add("before" if dict(pairs) == before else "merged" if dict(pairs) == merged else "ANOTHER map")
    return " and ".join(sorted(seen))


def calls():
    """The calls that change NEW: the name of each, and its number among those of the name."""
    shutil.copy("old.tdb", "g.tdb")
    run(*INTO, before=["strace", "-f", "-qq", "-o", "trace", "-e", "trace=" + CHANGING])
    names = [line.split()[1].split("(")[0] for line in open("trace") if ") = " in re.sub(" +", " ", line)]
    return [(name, names[:place].count(name) + 1) for place, name in enumerate(names)]


def stopped(before, merged, started, file):
    """What is found after a stop, where `started` is what was printed up to it."""
    found = state(before, merged)
    if b"ok" in started and found != "merged":
        found = "ok WAS PRINTED, " + found
    if content("f.tdb") != file:
        found = "FILE WAS CHANGED, " + found
    if not is_sound("stock.tdb"):
        found += ", tdbtool's check fails of the stock library's recovery"
    again = run(*INTO)
    if again.returncode or state(before, merged) != "merged":
        found += ", NOT MERGED by the next run: %r" % again.stdout
    if not is_sound("g.tdb"):
        found += ", and behind the next run"
    return found


def stops(before, merged):
    file, counts = content("f.tdb"), collections.Counter()
    shutil.copy("old.tdb", "g.tdb")
    start = time.time()
    run(*INTO)
    span = time.time() - start
    for _ in range(KILLS):
        shutil.copy("old.tdb", "g.tdb")
        started = subprocess.Popen([PROGRAM, *INTO], stdout=subprocess.PIPE, stderr=subprocess.DEVNULL)
        time.sleep(random.uniform(0, span * 1.2))
        started.kill()
        counts[stopped(before, merged, started.communicate()[0], file)] += 1
    print("killed at random:", dict(counts), flush=True)
    counts.clear()
    for name, number in calls():
        shutil.copy("old.tdb", "g.tdb")
        inject = "inject=%s:signal=KILL:when=%d" % (name, number)
        ran = run(*INTO, before=["strace", "-f", "-qq", "-o", "trace", "-e", inject])
        counts[stopped(before, merged, ran.stdout, file)] += 1
    print("killed behind each call:", dict(counts), flush=True)


def failures(before, merged):
    file, counts = content("f.tdb"), collections.Counter()
    for name, number in calls():
        if name not in FAILING:
            continue
        for when in (str(number), "%d+" % number):
            shutil.copy("old.tdb", "g.tdb")
            inject = "inject=%s:error=%s:when=%s" % (name, FAILING[name], when)
            ran = run(*INTO, before=["strace", "-f", "-qq", "-o", "trace", "-e", inject])
            found = stopped(before, merged, ran.stdout, file)
            counts["%s%s: %d %s, %s" % (name, " and all behind it" if "+" in when else "", ran.returncode,
                                        ran.stdout.decode().strip(), found)] += 1
    print("failing calls:")
    for found, count in sorted(counts.items()):
        print("  %s: %d" % (found, count))


def limits():
    counts, wrong = collections.Counter(), []
    old, whole = os.path.getsize("old.tdb"), os.path.getsize("g.tdb")
    near = [*range(old - 8, old + 64, 4), *range(whole - 64, whole + 64, 4)]
    for limit in [*near, *range(old, whole + 8192, 4096 // 3)]:
        shutil.copy("old.tdb", "g.tdb")
        ran = run("convert", "--limit", str(limit), "--into", "f.tdb", "g.tdb")
        answer = ran.stdout.decode().strip()
        kind = answer.split(" ")[0]
        counts["%d %s" % (ran.returncode, kind)] += 1
        if kind == "full":
            _, length, need = answer.split(" ")
            if int(length) + int(need) <= limit or ran.returncode != 6:
                wrong.append("%d: %s" % (limit, answer))
        if kind != "ok" and content("g.tdb") != content("old.tdb"):
            wrong.append("%d: %s: NEW was changed" % (limit, answer))
        if kind == "ok" and os.path.getsize("g.tdb") > limit:
            wrong.append("%d: ok: NEW has %d bytes" % (limit, os.path.getsize("g.tdb")))
    print("limits:", dict(counts), wrong or "nothing else")


def main():
    os.chdir(tempfile.mkdtemp(prefix="into"))
    each_two()
    before, merged = make()
    stops(before, merged)
    failures(before, merged)
    shutil.copy("old.tdb", "g.tdb")
    run(*INTO)
    limits()
    shutil.rmtree(os.getcwd())


main()
