#!/usr/bin/python3
"""Tries many times what lost data beside the stock library, and prints how often something was lost.

As root each is tried as root and as `nobody`; the stock process is root's. A loop of runs goes on for so many seconds.
Only what begins with NAME is tried, where it is said. Usage: losses.py PROGRAM [TRIES [SECONDS [NAME]]]
"""

import os, shutil, signal, subprocess, sys, tempfile, time

import tdb
from stock import KEYS, PROGRAM, Stock, make, opened, run

TRIES = int(sys.argv[2]) if len(sys.argv) > 2 else 20
# The flag of the stock library that its python module doesn't name.
MUTEX_LOCKING = 4096
SECONDS = float(sys.argv[3]) if len(sys.argv) > 3 else 1


def last_word(ran):
    """The first word of the last line that a run printed."""
    return ran.stdout.strip().split("\n")[-1].split(" ")[0]


def show_of_prepared(user):
    """A show while the stock process is between prepare and commit."""
    make().close()
    stock = Stock("is between prepare and commit")
    answer = run("tool", "f.tdb", "show", "key1", user=user).stdout
    stock.end()
    return [answer.strip()], stock.lost()


def loop_of(words, state):
    """Runs of these words, one after the other, while the stock process works."""
    def tried(user):
        make().close()
        shutil.copy("f.tdb", "f.tdb.bak")
        os.chmod("f.tdb.bak", 0o666)
        stock = Stock(state)
        end = time.time() + SECONDS
        runs = []
        while time.time() < end:
            runs.append(run(*words, user=user))
        stock.end()
        kept = [name for name in os.listdir(".") if ".refused" in name]
        return [last_word(ran) for ran in runs], stock.lost() + (["FILE is replaced"] if kept else [])
    return tried


def loop_of_stores(user):
    """Stores, one after the other, while the stock process stores."""
    make().close()
    stock = Stock("stores in a loop")
    answers = {}
    end = time.time() + SECONDS
    while time.time() < end:
        key = b"mine%d" % len(answers)
        answers[key] = last_word(run("tool", "f.tdb", "store", key.decode(), "1", user=user))
    stock.end()
    lost = stock.lost(there=[key for key, answer in answers.items() if answer == "ok"])
    return list(answers.values()), lost


def stores(_held):
    changed = opened()
    changed.store(b"stock", b"value")
    changed.close()


def stores_mapped(held):
    held.store(b"stock", b"value")


def wipes(_held):
    tdb.Tdb("f.tdb", 0, tdb.CLEAR_IF_FIRST, os.O_RDWR, 0o600).close()


def cuts(_held):
    os.truncate("f.tdb", 4096)


def replaces(_held):
    shutil.copy("f.tdb", "other")
    os.rename("other", "f.tdb")


def moves_away(_held):
    os.rename("f.tdb", "other")
    shutil.copy("other", "f.tdb")


def removes(_held):
    os.unlink("f.tdb")


def content():
    return open("f.tdb", "rb").read() if os.path.exists("f.tdb") else None


def changed_beneath(change, is_held, pause):
    """A session that stores, is changed beneath so many seconds later, and stores again after as many."""
    def tried(user):
        make().close()
        held = opened() if is_held else None
        session = subprocess.Popen([PROGRAM, "tool", "f.tdb"], stdin=subprocess.PIPE, stdout=subprocess.PIPE,
                                   stderr=subprocess.DEVNULL, user=user)
        session.stdin.write(b"store a 1\n")
        session.stdin.flush()
        first = session.stdout.readline().decode().strip()
        time.sleep(pause)
        change(held)
        before = content()
        time.sleep(pause)
        rest = session.communicate(b"store b 2\ncheck\n")[0].decode().strip().split("\n")
        rest = " ".join([first, "|", *rest])
        return [rest], [] if content() == before and "| ok" not in rest else ["a store after it says ok"]
    return tried


def line_by_line(user):
    """A session that is sent a line each 10 ms through a pipe; the stock library stores between two of them."""
    make().close()
    session = subprocess.Popen([PROGRAM, "tool", "f.tdb"], stdin=subprocess.PIPE, stdout=subprocess.PIPE,
                               stderr=subprocess.DEVNULL, user=user)
    for n in range(20):
        if n == 10:
            stores(None)
        session.stdin.write(b"store key%d other\n" % n)
        session.stdin.flush()
        answer = session.stdout.readline().decode().strip()
        if answer != "ok":
            break
        time.sleep(0.01)
    session.communicate()
    return ["%s at line %d" % (answer, n)], [] if n == 10 else ["a store after it says ok"]


def stopped(begun):
    """A session that is stopped in the midst of a piece of input, behind so many answers, while the stock library
    stores; then it goes on."""
    def tried(user):
        make().close()
        lines = b"".join(b"store key%d other\n" % (n % KEYS) for n in range(3000))
        session = subprocess.Popen([PROGRAM, "tool", "f.tdb"], bufsize=0, stdin=subprocess.PIPE,
                                   stdout=subprocess.PIPE, stderr=subprocess.DEVNULL, user=user)
        session.stdin.write(lines)
        head = b""
        while head.count(b"\n") < begun:
            head += session.stdout.read(3)
        session.send_signal(signal.SIGSTOP)
        time.sleep(0.05)
        stores(None)
        time.sleep(0.05)
        session.send_signal(signal.SIGCONT)
        answers = (head + session.communicate()[0]).decode().split()
        is_done = answers.count("ok") == 3000
        return ["ok to the end" if is_done else answers[-1]], ["a store after it says ok"] if is_done else []
    return tried


def after_burst(user):
    """A session that is sent many lines at once; 50 ms behind its last answer the stock library stores, and at once a
    line follows."""
    make().close()
    lines = b"".join(b"store key%d other\n" % (n % KEYS) for n in range(3000))
    session = subprocess.Popen([PROGRAM, "tool", "f.tdb"], bufsize=0, stdin=subprocess.PIPE, stdout=subprocess.PIPE,
                               stderr=subprocess.DEVNULL, user=user)
    session.stdin.write(lines)
    head = b""
    while head.count(b"\n") < 3000:
        head += session.stdout.read(4096)
    time.sleep(0.05)
    stores(None)
    session.stdin.write(b"store a 1\n")
    answer = session.communicate()[0].decode().strip()
    return [answer], ["a store after it says ok"] if answer == "ok" else []


def healthy(begin, is_held):
    """A `backup -v` of a file that the stock tools call healthy, open in a process or not."""
    def tried(user):
        make().close()
        copy = content()
        stock = Stock(begin)
        if not is_held:
            stock.end()
        assert "integrity is OK" in subprocess.run(["tdbtool", "f.tdb", "check"], capture_output=True, text=True).stdout
        with open("f.tdb.bak", "wb") as bak:
            bak.write(copy)
        before = os.stat("f.tdb").st_ino, content()
        answer = run("backup", "-v", "f.tdb", user=user).stdout.strip().replace("\n", ", ")
        after = os.stat("f.tdb").st_ino, content()
        if is_held:
            stock.end()
        kept = [name for name in os.listdir(".") if ".refused" in name]
        return [answer], [] if after == before else ["FILE is replaced, kept as %s" % kept]
    return tried


def recovered():
    """A file whose commit was cut short and which the stock library recovered."""
    make().close()
    stock = Stock("is between prepare and commit")
    os.kill(stock.process, signal.SIGKILL)
    os.waitpid(stock.process, 0)
    return opened()


def with_mutexes():
    return make(tdb.CLEAR_IF_FIRST | MUTEX_LOCKING)


TRIALS = {
    "show of a prepared transaction": show_of_prepared,
    "loop of show beside commits": loop_of(["tool", "f.tdb", "show", "key1"], "commits in a loop"),
    "loop of backup beside commits": loop_of(["backup", "f.tdb"], "commits in a loop"),
    "loop of backup -v beside commits": loop_of(["backup", "-v", "f.tdb"], "commits in a loop"),
    "loop of backup -v beside stores": loop_of(["backup", "-v", "f.tdb"], "stores in a loop"),
    "loop of stores beside stores": loop_of_stores,
    "backup -v of a healthy file": healthy(opened, False),
    "backup -v of a file in use": healthy(opened, True),
    "backup -v of a file that the stock library recovered": healthy(recovered, False),
    "backup -v of a file with mutexes, in use": healthy(with_mutexes, True),
    "backup -v of a file with mutexes, not in use": healthy(with_mutexes, False),
}
CHANGES = {
    "changed": (stores, False),
    "changed through mapped memory": (stores_mapped, True),
    "wiped": (wipes, False),
    "cut": (cuts, False),
    "replaced": (replaces, False),
    "moved away": (moves_away, False),
    "removed": (removes, False),
}
for what, (change, is_held) in CHANGES.items():
    TRIALS["session, file %s at once" % what] = changed_beneath(change, is_held, 0)
    TRIALS["session, file %s after 0.1 s" % what] = changed_beneath(change, is_held, 0.1)
TRIALS["session, a line each 10 ms"] = line_by_line
TRIALS["session, behind 3,000 lines at once"] = after_burst
for begun in 1, 100, 1000:
    TRIALS["session that is stopped behind %d answers" % begun] = stopped(begun)


def main():
    folder = tempfile.mkdtemp(prefix="losses")
    os.chmod(folder, 0o777)
    os.chdir(folder)
    os.umask(0)
    users = [None, "nobody"] if os.geteuid() == 0 else [None]
    print("| Tried | User | Answers | Lost |\n|---|---|---|---|")
    for name, tried in TRIALS.items():
        if len(sys.argv) > 4 and not name.startswith(sys.argv[4]):
            continue
        for user in users:
            told, losses = {}, {}
            for _ in range(TRIES):
                answers, lost = tried(user)
                for answer in answers:
                    told[answer] = told.get(answer, 0) + 1
                if lost:
                    losses[lost[0]] = losses.get(lost[0], 0) + 1
            shown = ", ".join("`%s` (%d)" % (answer[:60], times) for answer, times in told.items())
            lost = ", ".join("%s (%d of %d)" % (what, times, TRIES) for what, times in losses.items())
            print("| %s | %s | %s | %s |" % (name, user or "root", shown, lost or "nothing"), flush=True)
    shutil.rmtree(folder)


main()
