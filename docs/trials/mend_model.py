#!/usr/bin/env python3
"""Lists the pairs of a damaged tdb file as `read_as` of crates/tdb_mend/specs has them: a model of the definitions.

It prints the dump text of FILE, or compares it with LISTING. Of the faults that a check finds it looks for those of the
undo area, of places, lengths and tailers, and for bytes that two records hold.

    python3 mend_model.py FILE [LISTING]
"""

import struct
import sys

OPEN, SHUT, PADDING_WORD = 0xF53BC0E7, 0, 0x42424242
USED, DEAD, FREE = 0x26011999, 0xFEE1DEAD, 0xD9FEE666
PADDING = 0x42


class Refused(Exception):
    """Its text is the kind of the fault and its place."""


def word(o, img, at):
    return struct.unpack_from(o + "I", img, at)[0]


def put(o, img, at, w):
    return img[:at] + struct.pack(o + "I", w) + img[at + 4:]


def order_of(img):
    for o in "<>":
        if word(o, img, 32) == 0x2601196D:
            return o
    raise Refused("Header 0")


def data_start(o, img):
    return 168 + 4 * (word(o, img, 36) + 1)


def database_at(img):
    o = order_of(img)
    if word(o, img, 40) == 0x0BAD1A52 and word(o, img, 60) == 1 and word(o, img, 64) % 4 == 0:
        return word(o, img, 64)
    return 0


def database_in(img):
    return img[database_at(img):]


def without_mutexes(img):
    return img if database_at(img) == 0 else put(order_of(img), img, 60, 0)


def area_in_place(o, img, at):
    if at % 4 or at < data_start(o, img) or len(img) < at + 24:
        raise Refused("AreaBad 44")


def entries(o, img, at):
    place, end = at + 24, at + 24 + word(o, img, at + 12)
    while place + 8 < end:
        off, size = word(o, img, place), word(o, img, place + 4)
        yield place, off, size
        place += 8 + size


def widely_undone(o, img, at):
    end, old = at + 24 + word(o, img, at + 4), word(o, img, at + 8)
    content = at + 24 + word(o, img, at + 12)
    if old < data_start(o, img) or len(img) < old:
        raise Refused(f"UndoBad {at + 8}")
    if end < content:
        raise Refused(f"UndoBad {at + 12}")
    new = bytearray(img)
    for place, off, size in entries(o, img, at):
        if content < place + 8 + size:
            raise Refused(f"UndoBad {place}")
        stop = min(off + size, old)
        for first, last in ((off, min(stop, at)), (max(off, end), stop)):
            if first < last:
                new[first:last] = img[place + 8 + first - off:place + 8 + last - off]
    new[44:48] = img[44:48] if at < old else bytes(4)
    new[at + 20:at + 24] = bytes(4)
    cut = max(old, end) if at < old else old
    return bytes(new[:cut])


def undone_as(img):
    o = order_of(img)
    at = word(o, img, 44)
    if at == 0:
        return img
    area_in_place(o, img, at)
    gate = word(o, img, at + 20)
    if gate == PADDING_WORD:
        return put(o, img, 44, 0)
    rec_len = word(o, img, at + 4)
    if rec_len % 4 or len(img) < at + 24 + rec_len:
        raise Refused(f"AreaBad {at + 4}")
    if gate == OPEN:
        return widely_undone(o, img, at)
    if gate != SHUT:
        raise Refused(f"AreaBad {at + 20}")
    return img


def read_as(img):
    return without_mutexes(undone_as(img))


def records(o, img, place, magics):
    seen = set()
    at = word(o, img, place)
    while at:
        if at % 4 or at < data_start(o, img) or len(img) < at + 24:
            raise Refused(f"Out {place}")
        if at in seen:
            raise Refused(f"Loop {place}")
        seen.add(at)
        rec_len = word(o, img, at + 4)
        if word(o, img, at + 20) not in magics or rec_len % 4 or rec_len < 4 or len(img) < at + 24 + rec_len:
            raise Refused(f"BadRecord {at}")
        if word(o, img, at + 20) == USED and rec_len < word(o, img, at + 8) + word(o, img, at + 12) + 4:
            raise Refused(f"BadRecord {at}")
        if word(o, img, at + 20 + rec_len) != 24 + rec_len:
            raise Refused(f"Tailer {at}")
        yield at
        place, at = at, word(o, img, at)


def extents(o, img):
    es, used = [], []
    for j in range(word(o, img, 36)):
        for at in records(o, img, 172 + 4 * j, (USED, DEAD)):
            es.append((at, 24 + word(o, img, at + 4)))
            if word(o, img, at + 20) == USED:
                used.append(at)
    for at in records(o, img, 168, (FREE,)):
        es.append((at, 24 + word(o, img, at + 4)))
    at = word(o, img, 44)
    if at:
        es.append((at, 24 + word(o, img, at + 4)))
    es.sort()
    for a, b in zip(es, es[1:]):
        if b[0] < a[0] + a[1]:
            raise Refused(f"Overlap {b[0]}")
    return es, used


def strays(o, img, es):
    place, count = data_start(o, img), 0
    for at, size in es + [(len(img), 0)]:
        count += sum(1 for b in img[place:at] if b not in (0, PADDING))
        place = max(place, at + size)
    return count


def read_whole(img):
    img = read_as(database_in(img))
    if len(img) % 4 or len(img) < data_start(order_of(img), img):
        raise Refused(f"Short {len(img)}")
    return img


def changed(before, after):
    return sum(1 for a, b in zip(before, after) if a != b)


def text(data):
    return "".join(chr(b) if 0x20 <= b < 0x7F and b not in b'"\\' else "\\%02X" % b for b in data)


def dump(img):
    o = order_of(img)
    es, used = extents(o, img)
    out = []
    for at in used:
        key, value = at + 24, at + 24 + word(o, img, at + 8)
        k, v = img[key:value], img[value:value + word(o, img, at + 12)]
        out.append('{\nkey(%d) = "%s"\ndata(%d) = "%s"\n}\n' % (len(k), text(k), len(v), text(v)))
    return "".join(out), strays(o, img, es)


def main():
    with open(sys.argv[1], "rb") as file:
        img = file.read()
    read = read_whole(img)
    listing, stray = dump(read)
    if len(sys.argv) < 3:
        sys.stdout.write(listing)
        return
    with open(sys.argv[2], encoding="latin-1") as wanted:
        same = listing == wanted.read()
    print("the same" if same else "ANOTHER", f"{changed(database_in(img), read)} + {stray} bytes changed")


try:
    main()
except Refused as fault:
    sys.exit(f"refused: {fault}")
