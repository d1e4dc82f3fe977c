#!/usr/bin/python3
"""Mends files that the stock library left, and prints what came: those of FOLDER, with the listing of each beside it,
and files of DYING, a build of dying.c, which is killed at its writes. Then stops of a mending, and other names.

Each file that is refused is also given to the other commands, whose line on standard error is to say whether a mending
succeeds. Wanted: python3-tdb, tdbtool, strace and root. Usage: mends.py PROGRAM FOLDER DYING [KILLS]
"""

import collections, os, random, re, shutil, subprocess, sys, tempfile, time

import tdb

PROGRAM, FOLDER, DYING = map(os.path.abspath, sys.argv[1:4])
KILLS = int(sys.argv[4]) if len(sys.argv) > 4 else 300
CALLS = "flock,ftruncate,pwrite64,fsync,link,linkat,unlink,unlinkat,rename,renameat,renameat2,fchmod,fchown,write"
OTHERS = {
    "show": ["tool", "c.tdb", "show", "nokey"],
    "check": ["tool", "c.tdb", "check"],
    "keys": ["tool", "c.tdb", "keys"],
    "dump": ["dump", "c.tdb"],
    "backup": ["backup", "c.tdb"],
}


def run(*words, before=(), user=None):
    return subprocess.run([*before, PROGRAM, *words], stdin=subprocess.DEVNULL, capture_output=True, user=user)


def content(name):
    with open(name, "rb") as file:
        return file.read()


def remove(*names):
    for name in names:
        if os.path.exists(name):
            os.unlink(name)


def pairs_in(text):
    """The pairs of a dump, in its order."""

    def data(escaped):
        return re.sub(rb"\\(..)", lambda found: bytes([int(found.group(1), 16)]), escaped)

    found = re.findall(rb'\{\nkey\(\d+\) = "(.*)"\ndata\(\d+\) = "(.*)"\n\}\n', text)
    return [(data(key), data(value)) for key, value in found]


def is_sound(name):
    """Whether the check of the stock tool passes."""
    return b"integrity is OK" in subprocess.run(["tdbtool", name, "check"], capture_output=True).stdout


def stock_pairs(name):
    """The pairs of a copy in the order of tdbdump, once the stock library opened it for writing, and what it says."""
    shutil.copy(name, "stock.tdb")
    try:
        held = tdb.Tdb("stock.tdb", 0, tdb.DEFAULT, os.O_RDWR, 0o600)
        pairs = [(key, held[key]) for key in held]
        held.close()
    except (OSError, RuntimeError, KeyError) as error:
        return None, str(error)
    return pairs, "sound" if is_sound("stock.tdb") else "unsound"


def hints(name, is_mended):
    """Which of the other commands say something else than whether the file can be mended."""
    wrong = []
    for command, words in OTHERS.items():
        shutil.copy(name, "c.tdb")
        remove("c.tdb.bak")
        ran = run(*words)
        found = ran.stderr.decode().strip()
        way = "'tdb mend c.tdb NEW' can read it" if is_mended else "'tdb dump -e c.tdb' prints what can still be read"
        wanted = "tdb: c.tdb: " + way if ran.stdout.startswith(b"corrupt ") else ""
        if found != wanted:
            wrong.append("%s: %r, %r" % (command, ran.stdout[:40], found))
    return wrong


def mended(name, pairs):
    """What a mending of a file with these pairs answers, and all that isn't as it should be."""
    before = content(name)
    remove("new.tdb")
    ran = run("mend", name, "new.tdb")
    answer, wrong = ran.stdout.decode().strip(), []
    if content(name) != before:
        wrong.append("FILE was changed")
    if ran.returncode == 0:
        own = pairs_in(run("dump", "new.tdb").stdout)
        stock, said = stock_pairs("new.tdb")
        if said != "sound":
            wrong.append("stock finds NEW " + said)
        if stock != own:
            wrong.append("the stock library reads other pairs of NEW than dump")
        if pairs is not None and own != pairs:
            wrong.append("another order than FILE's" if sorted(own) == sorted(pairs) else "OTHER PAIRS than FILE's")
    elif os.path.exists("new.tdb"):
        wrong.append("status %d, but NEW is there" % ran.returncode)
    return answer, wrong


def fixtures():
    for folder in (FOLDER, os.path.join(FOLDER, "crashed")):
        for name in sorted(name for name in os.listdir(folder) if name.endswith(".tdb")):
            shutil.copy(os.path.join(folder, name), "f.tdb")
            answer, wrong = mended("f.tdb", pairs_in(content(os.path.join(folder, name[:-4] + ".dump"))))
            wrong += hints("f.tdb", answer.startswith("mended"))
            print("  %s: %s; %s" % (name, answer, wrong or "as the listing"), flush=True)


def died(seed, writes):
    """A file of a process that died, some of them once more in its recovery."""
    remove("f.tdb")
    words = [str(random.randrange(writes))] + (["half"] if random.random() < 0.5 else [])
    subprocess.run([DYING, "f.tdb", str(seed), "40", *words], capture_output=True)
    if random.random() < 0.25:
        subprocess.run([DYING, "f.tdb", str(seed), "0", str(random.randrange(30))], capture_output=True)


def dying():
    counts, others, writes = collections.Counter(), [], {}
    for number in range(KILLS):
        remove("f.tdb")
        seed = random.randrange(20)
        if seed not in writes:
            ended = subprocess.run([DYING, "f.tdb", str(seed), "40"], capture_output=True, text=True)
            writes[seed] = int(ended.stdout)
        died(seed, writes[seed])
        if not os.path.exists("f.tdb") or os.path.getsize("f.tdb") == 0:
            counts["no file yet"] += 1
            continue
        opened = run("dump", "f.tdb").stdout.decode(errors="replace").split("\n")[0]
        opened = "accepted" if opened[:1] in ("{", "") else re.sub(r" \d+$", "", opened)
        pairs, stock = stock_pairs("f.tdb")
        answer, wrong = mended("f.tdb", pairs)
        if opened.startswith("corrupt"):
            wrong += hints("f.tdb", answer.startswith("mended"))
        kind = re.sub(r" \d+$", " N" if answer != "mended 0" else " 0", answer)
        counts["%s; stock: %s; mend: %s" % (opened, stock, kind)] += 1
        if wrong:
            shutil.copy("f.tdb", "wrong%d.tdb" % number)
            others.append("wrong%d.tdb: %s" % (number, wrong))
    for found, count in sorted(counts.items()):
        print("  %s: %d" % (found, count))
    print("\n".join("  " + other for other in others) or "  nothing else")


def left(whole):
    """What a stopped mending leaves, and what is left once the words were run again."""
    found = "no NEW"
    if os.path.exists("new.tdb"):
        found = "whole" if run("dump", "new.tdb").stdout == whole else "DAMAGED %d" % os.path.getsize("new.tdb")
    run("mend", "f.tdb", "new.tdb")
    if not os.path.exists("new.tdb") or run("dump", "new.tdb").stdout != whole:
        found += ", NOT WHOLE after the next run"
    names = set(os.listdir(".")) - {"f.tdb", "new.tdb", "trace", "stock.tdb", "c.tdb", "c.tdb.bak"}
    names = {name for name in names if not name.startswith("wrong")}
    return found + (", left: %s" % sorted(names) if names else "")


def stops():
    shutil.copy(os.path.join(FOLDER, "gate_open.tdb"), "f.tdb")
    before, whole = content("f.tdb"), content(os.path.join(FOLDER, "gate_open.dump"))
    remove("new.tdb")
    start = time.time()
    run("mend", "f.tdb", "new.tdb", before=["strace", "-f", "-qq", "-o", "trace", "-e", "trace=" + CALLS])
    names = [line.split()[1].split("(")[0] for line in open("trace") if ") = " in re.sub(" +", " ", line)]
    remove("new.tdb")
    start = time.time()
    run("mend", "f.tdb", "new.tdb")
    span, counts = time.time() - start, collections.Counter()
    for _ in range(100):
        remove("new.tdb")
        started = subprocess.Popen([PROGRAM, "mend", "f.tdb", "new.tdb"], stdout=subprocess.DEVNULL)
        time.sleep(random.uniform(0, span * 1.2))
        started.kill()
        started.wait()
        counts[left(whole)] += 1
    print("killed at random:", dict(counts))
    for what in ("signal=KILL", "error=EIO"):
        counts.clear()
        for place, name in enumerate(names):
            remove("new.tdb")
            inject = "inject=%s:%s:when=%d" % (name, what, names[:place].count(name) + 1)
            ran = run("mend", "f.tdb", "new.tdb", before=["strace", "-f", "-qq", "-o", "trace", "-e", inject])
            answer = "" if "KILL" in what else "%s: %d %s: " % (name, ran.returncode, ran.stdout.decode().strip())
            counts[answer + left(whole)] += 1
        print("%s at each call:" % what, dict(counts))
    print("FILE is as before:", content("f.tdb") == before)


def names():
    whole = content(os.path.join(FOLDER, "gate_open.dump"))
    remove("new.tdb")
    os.chmod(".", 0o777)
    os.chmod("f.tdb", 0o444)
    for user in (None, "nobody"):
        ran = run("mend", "f.tdb", "new.tdb", user=user)
        mode = os.stat("new.tdb").st_mode & 0o777
        print("mode 444, %s: %d %s %s; NEW has mode %o; whole: %s" % (
            user or "root", ran.returncode, ran.stdout, ran.stderr, mode, run("dump", "new.tdb").stdout == whole))
        if user is None:
            remove("new.tdb")
    before = content("new.tdb")
    ran = run("mend", "f.tdb", "new.tdb")
    print("NEW is there: %d %s, %s" % (ran.returncode, ran.stdout, content("new.tdb") == before))
    os.chmod("f.tdb", 0o600)
    held = tdb.Tdb("h.tdb", 0, tdb.DEFAULT, os.O_RDWR | os.O_CREAT, 0o600)
    held.store(b"a", b"1")
    for name in ("no transaction", "a transaction", "a prepared transaction"):
        if name != "no transaction":
            held.transaction_start()
            held.store(b"a", b"2" * 3000)
        if "prepared" in name:
            held.transaction_prepare_commit()
        remove("i.tdb")
        ran = run("mend", "h.tdb", "i.tdb")
        print("in use, %s: %d %s %s" % (name, ran.returncode, ran.stdout, ran.stderr))
        if name != "no transaction":
            held.transaction_cancel()
    print("still used: %s" % (held.get(b"a") == b"1"))
    for size in ("8k", "16k"):
        os.makedirs("full", exist_ok=True)
        subprocess.run(["mount", "-t", "tmpfs", "-o", "size=" + size, "tmpfs", "full"], check=True)
        ran = run("mend", "f.tdb", "full/new.tdb")
        print("a disk of %s: %d %s %s; left: %s" % (size, ran.returncode, ran.stdout, ran.stderr, os.listdir("full")))
        subprocess.run(["umount", "full"], check=True)


def main():
    folder = tempfile.mkdtemp(prefix="mends")
    os.chdir(folder)
    print("fixtures:")
    fixtures()
    print("of a process that died:")
    dying()
    stops()
    names()
    if any(name.startswith("wrong") for name in os.listdir(".")):
        print("kept:", folder)
    else:
        shutil.rmtree(folder)


main()
