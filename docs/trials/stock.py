"""A process of the stock library on the file f.tdb of the working folder, beside which the trials run the program.

Wanted: python3-tdb, tdbtool, and Linux.
"""

import os, signal, subprocess, sys, time

import tdb

PROGRAM = os.path.abspath(sys.argv[1])
KEYS = 200


def run(*words, data="", user=None, wait=2, **environment):
    """A run of the program, which waits at most so many seconds for a file."""
    return subprocess.run([PROGRAM, *words], input=data, capture_output=True, text=True, timeout=120, user=user,
                          env={**os.environ, "TDB_WAIT": str(wait), **environment})


def opened(name="f.tdb", flags=tdb.DEFAULT):
    return tdb.Tdb(name, 0, flags, os.O_RDWR, 0o600)


def make(flags=tdb.DEFAULT):
    """A new f.tdb that all may write, alone in the folder, with some keys and an undo area of a transaction."""
    for name in os.listdir("."):
        os.unlink(name)
    made = tdb.Tdb("f.tdb", 0, flags, os.O_RDWR | os.O_CREAT, 0o666)
    os.chmod("f.tdb", 0o666)
    for n in range(KEYS):
        made.store(b"key%d" % n, b"value")
    if not flags & tdb.CLEAR_IF_FIRST:
        made.transaction_start()
        made.store(b"first", b"transaction")
        made.transaction_commit()
    return made


def clear_if_first():
    """The process that cleared the file, with its lock on byte 4."""
    return make(tdb.CLEAR_IF_FIRST)


def in_transaction():
    held = opened()
    held.transaction_start()
    held.store(b"stock", b"x" * 20000)
    return held


def prepared():
    held = in_transaction()
    held.transaction_prepare_commit()
    return held


def store(held, key):
    held.store(key, b"y" * 100)


def commit(held, key):
    held.transaction_start()
    store(held, key)
    held.transaction_commit()


# How the process begins, and what it does again and again.
STATES = {
    "has the file open, no lock": (opened, None),
    "has it open with `CLEAR_IF_FIRST`": (clear_if_first, None),
    "is in a transaction": (in_transaction, None),
    "is between prepare and commit": (prepared, None),
    "stores in a loop": (opened, store),
    "commits in a loop": (opened, commit),
}


def work(begin, again, pipe):
    """The process: says that it is ready, goes on until it is ended, commits, and says how often it went round."""
    ended, done = [], 0
    signal.signal(signal.SIGTERM, lambda *_: ended.append(1))
    held = begin()
    os.write(pipe, b"r")
    while not ended:
        if again:
            again(held, b"loop%d" % done)
            done += 1
        else:
            time.sleep(0.001)
    if begin in (in_transaction, prepared):
        held.transaction_commit()
    os.write(pipe, b"%d" % done)


class Stock:
    """The process in one of the states, or which begins so, and after its end how often it went round, and its status.

    It is a process of its own, since a process that closes a file once loses all its locks on it."""

    def __init__(self, state):
        self.begin, again = STATES.get(state, (state, None))
        self.pipe, other = os.pipe()
        self.process = os.fork()
        if self.process == 0:
            try:
                work(self.begin, again, other)
                os._exit(0)
            except BaseException as error:
                os.write(2, b"stock process: %s\n" % str(error).encode())
                os._exit(1)
        os.close(other)
        os.read(self.pipe, 1)

    def end(self):
        os.kill(self.process, signal.SIGTERM)
        _, self.status = os.waitpid(self.process, 0)
        self.done = int(os.read(self.pipe, 20) or 0)
        os.close(self.pipe)

    def committed(self):
        """The keys that it committed before it ended."""
        keys = {b"loop%d" % n for n in range(self.done)} | {b"key%d" % n for n in range(KEYS)}
        return keys | {b"stock"} if self.begin in (in_transaction, prepared) else keys

    def looked(self, look):
        """What isn't as it should be: its end, what `look` finds in the file, and what the stock tool finds."""
        found = [] if self.status == 0 else ["the process ended with %d" % self.status]
        try:
            after = opened()
            found += look(after)
            after.close()
            checked = subprocess.run(["tdbtool", "f.tdb", "check"], capture_output=True, text=True)
            found += [] if "integrity is OK" in checked.stdout else ["tdbtool's check: " + checked.stdout.strip()]
        except (OSError, RuntimeError) as error:
            found.append(str(error))
        return found

    def lost(self, there=(), gone=()):
        """What isn't as it should be, its keys and these that are to be there, and these that aren't."""

        def look(after):
            wanted = sorted(self.committed() - set(gone)) + list(there)
            found = [key.decode() for key in wanted if after.get(key) is None]
            return found + [key.decode() + " is there" for key in gone if after.get(key) is not None]

        return self.looked(look)

    def lost_behind_erase(self):
        """The same where all pairs were erased meanwhile: of the keys of its loop the last are there, and none before."""

        def look(after):
            loop = [b"loop%d" % n for n in range(self.done)]
            first = next((n for n, key in enumerate(loop) if after.get(key) is not None), self.done)
            erased = sorted(self.committed() - set(loop)) + [b"first"]
            found = [key.decode() + " is there" for key in erased if after.get(key) is not None]
            return found + [key.decode() for key in loop[first:] if after.get(key) is None]

        return self.looked(look)
