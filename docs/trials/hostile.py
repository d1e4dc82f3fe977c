#!/usr/bin/python3
"""Gives files that are made to be slow, and small ones with each fault, to `mend`, `dump -e` and `check`, and prints
answers, the processor's time and the greatest resident set.

Wanted: libtdb for its Jenkins hash, and GNU time. Usage: hostile.py PROGRAM [LENGTH..], lengths of slow files in KiB
"""

import ctypes, os, shutil, struct, subprocess, sys, tempfile

PROGRAM = os.path.abspath(sys.argv[1])
LENGTHS = [int(word) << 10 for word in sys.argv[2:]] or [168 << 10, 1 << 20]
USED, DEAD, FREE, OPEN = 0x26011999, 0xFEE1DEAD, 0xD9FEE666, 0xF53BC0E7
MASK = 0xFFFFFFFF
COMMANDS = {
    "mend": ["mend", "f.tdb", "new.tdb"],
    "dump -e": ["dump", "-e", "f.tdb"],
    "check": ["tool", "f.tdb", "check"],
}


class Data(ctypes.Structure):
    _fields_ = [("at", ctypes.c_char_p), ("size", ctypes.c_size_t)]


JENKINS = ctypes.CDLL("libtdb.so.1").tdb_jenkins_hash


def jenkins(key):
    return JENKINS(ctypes.byref(Data(bytes(key), len(key)))) & MASK


def shifted(piece):
    """What these bytes add to the value of the default hash, where they begin at a multiple of 24."""
    return sum(byte << (5 * i % 24) for i, byte in enumerate(piece))


def default(key):
    return ((0x238F13AF * len(key) + shifted(key)) * 1103515243 + 12345) & MASK


def words(o, *ws):
    return struct.pack("%s%dI" % (o, len(ws)), *ws)


def header(o, hashing, chains, area=0):
    food, locks = b"TDB file\n\0", 0x0BAD1A51 if hashing is jenkins else 0
    hashes = hashing(food), hashing(words(o, USED))
    return (food.ljust(32, b"\0") + words(o, 0x2601196D, chains, locks, area, 0, *hashes)).ljust(168, b"\0")


def nested(o, length, is_right, is_led_to):
    """Records of the default hash: headers one behind another, and keys that reach over all headers behind."""
    count = (length - 176) // 60
    first, filler = 176, 32 * count
    keys_end = first + 24 * count + filler
    out, value = [], shifted(b"x" * filler)
    for i in reversed(range(count)):
        at = first + 24 * i
        key_len, rec_len = keys_end - at - 24, keys_end + 4 * i + 4 - at - 24
        full = ((0x238F13AF * key_len + value) * 1103515243 + 12345) & MASK
        following = at + 24 if i + 1 < count else 0
        out.append(words(o, following, rec_len, key_len, 0, full if is_right else full ^ 1, USED))
        value = (value + shifted(out[-1])) & MASK
    tailers = [words(o, keys_end + 4 * i + 4 - first - 24 * i) for i in range(count)]
    heads = words(o, 0, first if is_led_to else 0)
    return [header(o, default, 1), heads, *reversed(out), b"x" * filler, *tailers]


def strays(o, length):
    return [header(o, default, 1), words(o, 0, 0), b"\1" * (length - 176)]


def loop(o, length):
    """One chain of dead records that leads back to its middle."""
    count = (length - 176) // 28
    places = [176 + 28 * i for i in range(count)]
    nexts = places[1:] + [places[count // 2]]
    return [header(o, default, 1), words(o, 0, 176), *(words(o, n, 4, 0, 0, 0, DEAD, 28) for n in nexts)]


def area_at(o, at, length, old, content):
    return [header(o, default, 1, at), words(o, 0, 0), bytes(at - 176),
            words(o, 0, length - at - 24, old, len(content), 0, OPEN), content]


def empty_entries(o, length):
    """An open area of entries that keep nothing."""
    count = (length - 176 - 28) // 8
    return area_at(o, 176, length, 176, words(o, 0, 0) * count + words(o, 0))


def last_page_first(o, length):
    """An open area, behind `length` bytes, of entries that keep a byte of each page, the last page first."""
    entries = b"".join(words(o, at, 1) + b"\0" for at in range(length - 4096, 4095, -4096))
    content = entries + words(o, 0)
    content += bytes(-len(content) % 4)
    whole = length + 24 + len(content)
    return area_at(o, length, whole, length, content)


def write(pieces, length=0):
    with open("f.tdb", "wb") as file:
        for piece in pieces:
            if not piece.strip(b"\0") and len(piece) > 4096:
                file.seek(len(piece), 1)
            else:
                file.write(piece)
    os.truncate("f.tdb", max(os.path.getsize("f.tdb") + 3 & ~3, length))


def measured(command):
    """The answer of a run, the processor's time in seconds, and the memory in KiB."""
    timed = ["time", "-q", "-o", "used", "-f", "%M %U %S", PROGRAM, *COMMANDS[command]]
    ran = subprocess.Popen(timed, stdin=subprocess.DEVNULL, stdout=subprocess.PIPE, stderr=subprocess.DEVNULL)
    start, size = ran.stdout.read(100), 0
    while piece := ran.stdout.read(1 << 20):
        size += len(piece)
    ran.wait()
    memory, user, system = open("used").read().split()
    text = "%d bytes" % (size + 100) if size else start.decode(errors="replace").strip()
    return text, float(user) + float(system), int(memory)


def slow():
    print("| File | Size | Command | Answer | Time | Memory |\n|---|---|---|---|---|---|")
    files = []
    for length in LENGTHS:
        files += [("stray bytes", strays("<", length), 0),
                  ("a chain that leads back into its middle", loop("<", length), 0),
                  ("entries that keep nothing", empty_entries("<", length), length)]
    for mib in (64, 256):
        files.append(("entries of pages, the last one first", last_page_first("<", mib << 20), 0))
    for length in LENGTHS:
        files += [("records within each other", nested("<", length, True, True), 0),
                  ("the same, of wrong hashes", nested("<", length, False, True), 0),
                  ("the same, right, and in no chain", nested("<", length, True, False), 0)]
    for name, pieces, length in files:
        write(pieces, length)
        for command in COMMANDS:
            if os.path.exists("new.tdb"):
                os.unlink("new.tdb")
            answer, seconds, memory = measured(command)
            print("| %s | %d | `%s` | `%s` | %.2f s | %.1f MB |" % (
                name, os.path.getsize("f.tdb"), command, answer, seconds, memory / 1000), flush=True)


def small(o, hashing):
    """A file of 5 chains with the keys a, b and c, a free record, and an area with its gate shut."""
    start = 168 + 4 * 6
    heads, body, at = [0] * 6, b"", start
    for key, value in ((b"a", b"1"), (b"b", b"2"), (b"c", b"3")):
        full = hashing(key)
        chain = 1 + full % 5
        body += words(o, heads[chain], 12, 1, 1, full, USED) + key + value + b"B" * 6 + words(o, 36)
        heads[chain] = at
        at += 36
    heads[0] = at
    body += words(o, 0, 12, 0, 0, 0, FREE) + b"\0" * 8 + words(o, 36)
    at += 36
    kept = words(o, 48, 4, 7) + words(o, start + 25, 1) + b"9" + words(o, 64)
    body += words(o, 0, 40, at, len(kept), 0, 0) + kept.ljust(40, b"B")
    return header(o, hashing, 5, at) + words(o, *heads) + body, start, at, heads


def faults(o, hashing):
    """Small files with one fault each, and one without: what is done to the words at places."""
    image, start, area, heads = small(o, hashing)
    head = next(place for place in range(1, 6) if heads[place])
    gate = [(area + 20, OPEN)]
    led = heads[head]
    chain, other, key = 1 + hashing(b"a") % 5, start + 36, struct.unpack(o + "I", b"a2BB")[0]
    twice = [(172 + 4 * i, 0) for i in range(5)]
    twice += [(168 + 4 * chain, other), (other, start), (other + 16, hashing(b"a")), (other + 24, key)]
    return image, {
        "sound": [], "Short": 100, "Short, no multiple of 4": len(image) - 1, "Short, in the heads": 180,
        "NotTdb": [(0, 0)], "Version": [(32, 0)], "OldLocks": [(40, 1)], "Mutexes": [(40, 0x0BAD1A52), (60, 1)],
        "UnknownHash": [(52, 1)], "NoBuckets": [(36, 0)], "chains past the end": [(36, 1 << 30)],
        "AreaBad, place": [(44, 2)], "AreaBad, in the header": [(44, 100)], "AreaBad, past the end": [(44, 1 << 20)],
        "AreaBad, its length": [(area + 4, 400)], "AreaBad, gate": [(area + 20, 5)],
        "area of padding": [(area + 4 * i, 0x42424242) for i in range(6)],
        "open gate": gate, "UndoBad, old length": gate + [(area + 8, 20)],
        "UndoBad, past the end": gate + [(area + 8, 900)], "UndoBad, content": gate + [(area + 12, 44)],
        "old length within the area": gate + [(area + 8, area + 32)],
        "UndoBad, entry past the content": gate + [(area + 28, 400)],
        "entry past the old length": gate + [(area + 36, area)],
        "entry over the area": gate + [(area + 36, area + 24)],
        "undone to another header": gate + [(area + 24, 32)],
        "ChainOut": [(168 + 4 * head, 5)], "ChainOut, past the end": [(168 + 4 * head, 1 << 30)],
        "ChainLoop": [(led, led)], "BadRecord, magic": [(led + 20, 0)], "BadRecord, length": [(led + 4, 6)],
        "BadRecord, past the end": [(led + 4, 1 << 20)], "BadRecord, key": [(led + 8, 8)], "Tailer": [(led + 32, 35)],
        "WrongHash": [(led + 16, 5)], "TwiceKey": twice, "FreeOut": [(168, 2)], "FreeLoop": [(heads[0], heads[0])],
        "BadRecord, free": [(heads[0] + 20, 1)], "Tailer, free": [(heads[0] + 32, 1)],
        "Overlap": [(heads[0] + 4, 12 + 64), (heads[0] + 32 + 64, 100)], "dead": [(led + 20, DEAD)],
        "Stray": [(168 + 4 * head, 0)],
    }


def each_fault():
    for name in faults("<", default)[1]:
        answers = {}
        for o in "<>":
            for hashing in (default, jenkins):
                image, changes = faults(o, hashing)
                change, bytes_ = changes[name], bytearray(image)
                if isinstance(change, int):
                    bytes_ = bytes_[:change]
                else:
                    for at, word in change:
                        bytes_[at:at + 4] = words(o, word)
                with open("f.tdb", "wb") as file:
                    file.write(bytes_)
                found = []
                for command in COMMANDS:
                    if os.path.exists("new.tdb"):
                        os.unlink("new.tdb")
                    ran = subprocess.run([PROGRAM, *COMMANDS[command]], stdin=subprocess.DEVNULL, capture_output=True)
                    text = ran.stdout.decode().strip()
                    if command == "dump -e" and ran.returncode == 0:
                        text = "%d pairs" % text.count("key(")
                    if command == "mend" and ran.returncode == 0:
                        text += ", %d pairs" % subprocess.run([PROGRAM, "dump", "new.tdb"], capture_output=True,
                                                              text=True).stdout.count("key(")
                    if command == "mend" and open("f.tdb", "rb").read() != bytes_:
                        text += " FILE WAS CHANGED"
                    found.append("%d %s" % (ran.returncode, text))
                answers.setdefault(" / ".join(found), []).append(o + hashing.__name__)
        for answer, forms in answers.items():
            print("| %s | %s | %s |" % (name, "all four" if len(forms) == 4 else ", ".join(forms), answer))


def main():
    os.chdir(tempfile.mkdtemp(prefix="hostile"))
    if len(sys.argv) < 3:
        print("mend / dump -e / check:")
        each_fault()
    slow()
    shutil.rmtree(os.getcwd())


main()
