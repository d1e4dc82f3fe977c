#!/usr/bin/python3
"""Runs each command beside a process of the stock library, and prints a table of what came.

As root each command is run as root and as `nobody`; the stock process is root's. Behind a command stands in how many of
its rounds that came, where it wasn't in each. Usage: beside_stock.py PROGRAM [ROUNDS [COMMAND ..]]
"""

import os, re, shutil, sys, tempfile

from stock import KEYS, STATES, Stock, make, opened, run

ROUNDS = int(sys.argv[2]) if len(sys.argv) > 2 else 1
DUMP = '{\nkey(1) = "a"\ndata(1) = "1"\n}\n'
IN_TRANSACTION = "transaction_start\nstore mine 1\ntransaction_commit\n"

# The words, the input, and the keys that are there and gone where the answer is that it is done.
COMMANDS = {
    "show": (["tool", "f.tdb", "show", "key1"], "", [], []),
    "check": (["tool", "f.tdb", "check"], "", [], []),
    "keys": (["tool", "f.tdb", "keys"], "", [], []),
    "hexkeys": (["tool", "f.tdb", "hexkeys"], "", [], []),
    "first": (["tool", "f.tdb", "first"], "", [], []),
    "info": (["tool", "f.tdb", "info"], "", [], []),
    "list": (["tool", "f.tdb", "list"], "", [], []),
    "free": (["tool", "f.tdb", "free"], "", [], []),
    "dump": (["dump", "f.tdb"], "", [], []),
    "dump -k": (["dump", "-k", "key1", "f.tdb"], "", [], []),
    "dump -e": (["dump", "-e", "f.tdb"], "", [], []),
    "store": (["tool", "f.tdb", "store", "mine", "1"], "", [b"mine"], []),
    "storehex": (["tool", "f.tdb", "storehex", "6d696e65", "31"], "", [b"mine"], []),
    "delete": (["tool", "f.tdb", "delete", "key0"], "", [], [b"key0"]),
    "insert": (["tool", "f.tdb", "insert", "mine", "1"], "", [b"mine"], []),
    "erase": (["tool", "f.tdb", "erase"], "", [], []),
    "repack": (["tool", "f.tdb", "repack"], "", [], []),
    "transaction": (["tool", "f.tdb"], IN_TRANSACTION, [b"mine"], []),
    "turns": (["turns", "f.tdb"], "open\ndo 1 store mine 1\n", [b"mine"], []),
    "backup": (["backup", "f.tdb"], "", [], []),
    "backup -v": (["backup", "-v", "f.tdb"], "", [], []),
    "convert": (["convert", "f.tdb", "n.tdb"], "", [], []),
    "convert --into": (["convert", "--into", "f.tdb", "f.tdb.bak"], "", [], []),
    "convert --into it": (["convert", "--into", "f.tdb.bak", "f.tdb"], "", [b"mine"], []),
    "mend": (["mend", "f.tdb"], "", [], []),
    "mend to NEW": (["mend", "f.tdb", "n.tdb"], "", [], []),
    "move": (["tool", "f.tdb", "move", "key0", "f.tdb.bak"], "", [], [b"key0"]),
    "move into it": (["tool", "f.tdb.bak", "move", "mine", "f.tdb"], "", [b"mine"], []),
    "create": (["tool", "f.tdb", "create"], "", [], []),
    "restore": (["restore", "f.tdb"], DUMP, [], []),
    "gen": (["gen", "10", "1", "f.tdb"], "", [], []),
}

# The copy that a command makes.
COPIES = {"backup": "f.tdb.bak", "convert": "n.tdb", "mend to NEW": "n.tdb"}

# What is told on standard error, and the word for it in the table.
TOLD = {
    "tdb: warning: f.tdb: python3 (process N) has the file open: what is read may be half of a change": "warning",
    "tdb: f.tdb: python3 (process N) has the file open": "in use",
    "tdb: f.tdb: the file was changed by another program": "changed",
}


def is_done(name, ran):
    """Whether the command says that it is done."""
    wanted = {"transaction": "ok\nok\nok\n", "turns": "1 done ok\n"}.get(name, "")
    return ran.returncode == 0 and ran.stdout.endswith(wanted)


def lost_in_copy(name):
    """What a copy lacks that was in the file before the stock process began."""
    copy = opened(name)
    return ["the copy lacks key%d" % n for n in range(KEYS) if copy.get(b"key%d" % n) is None]


def beside(state, name, user):
    """The answer, what is told on standard error, and what is lost, of a command beside a stock process."""
    words, data, there, gone = COMMANDS[name]
    make().close()
    run("backup", "f.tdb")
    run("tool", "f.tdb.bak", "store", "mine", "1")
    with open("f.tdb.bak", "rb") as copy:
        backed_up = copy.read()
    stock = Stock(state)
    # The process that clears the file has an empty folder.
    with open("f.tdb.bak", "wb") as copy:
        copy.write(backed_up)
    os.chmod("f.tdb.bak", 0o666)
    ran = run(*words, data=data, user=user)
    stock.end()
    if is_done(name, ran):
        answer = "done"
        lost = stock.lost_behind_erase() if name == "erase" else stock.lost(there, gone)
        lost += lost_in_copy(COPIES[name]) if name in COPIES else []
    else:
        # Which fault is met first, and where, hangs on the moment.
        answer = "`%s`" % re.sub("^corrupt .*", "corrupt ..", ran.stdout.strip().split("\n")[-1][:40])
        lost = stock.lost(gone=there)
    lines = ran.stderr.replace(str(stock.process), "N").splitlines()
    told = ", ".join(TOLD.get(line, line) for line in lines)
    made = {COPIES[name]} if answer == "done" and name in COPIES else set()
    left = sorted(set(os.listdir(".")) - {"f.tdb", "f.tdb.bak"} - made)
    return answer, told, ", ".join(lost[:3] + left) or "nothing"


def main():
    folder = tempfile.mkdtemp(prefix="beside")
    os.chmod(folder, 0o777)
    os.chdir(folder)
    os.umask(0)
    users = [None, "nobody"] if os.geteuid() == 0 else [None]
    for line, word in TOLD.items():
        print("- %s: `%s`" % (word, line))
    print("\n| The stock process | User | Commands | Answer | Standard error | Lost or left |\n|---|---|---|---|---|---|")
    for state in STATES:
        for user in users:
            seen = {}
            for name in sys.argv[3:] or COMMANDS:
                for _ in range(ROUNDS):
                    counts = seen.setdefault(beside(state, name, user), {})
                    counts[name] = counts.get(name, 0) + 1
            for (answer, told, lost), counts in seen.items():
                names = ", ".join(name if n == ROUNDS else "%s (%d)" % (name, n) for name, n in counts.items())
                print("|", " | ".join([state, user or "root", names, answer, told, lost]), "|", flush=True)
    shutil.rmtree(folder)


main()
