/* The same table and the same locks as src/locks.rt, in plain C: a sorted array of pieces.
   gcc -O2 -o locks locks.c && time ./locks 1000000 */
#include <stdint.h>
#include <stdio.h>
#include <stdlib.h>
#include <string.h>

enum kind { READ, WRITE };

struct piece {
    uint64_t start, end;
    uint32_t owner;
    enum kind kind;
};

struct table {
    struct piece *pieces;
    size_t count, room;
};

static size_t first_past(const struct table *t, uint32_t owner, uint64_t byte)
{
    size_t low = 0, high = t->count;
    while (low < high) {
        size_t mid = low + (high - low) / 2;
        const struct piece *p = &t->pieces[mid];
        if (p->owner < owner || (p->owner == owner && p->end <= byte))
            low = mid + 1;
        else
            high = mid;
    }
    return low;
}

static size_t first_from(const struct table *t, uint32_t owner, uint64_t byte)
{
    size_t low = 0, high = t->count;
    while (low < high) {
        size_t mid = low + (high - low) / 2;
        const struct piece *p = &t->pieces[mid];
        if (p->owner < owner || (p->owner == owner && p->start < byte))
            low = mid + 1;
        else
            high = mid;
    }
    return low;
}

/* puts at most three pieces in the place of those from `from` up to `to` */
static void replace(struct table *t, size_t from, size_t to, const struct piece *with, size_t count)
{
    size_t after = t->count - (to - from) + count;
    if (after > t->room) {
        t->room = 2 * after;
        t->pieces = realloc(t->pieces, t->room * sizeof *t->pieces);
        if (!t->pieces)
            exit(1);
    }
    memmove(t->pieces + from + count, t->pieces + to, (t->count - to) * sizeof *t->pieces);
    memcpy(t->pieces + from, with, count * sizeof *with);
    t->count = after;
}

static void put(struct table *t, uint32_t owner, uint64_t start, uint64_t end, const struct piece *mid)
{
    size_t from = first_past(t, owner, start), to = first_from(t, owner, end), count = 0;
    struct piece with[3];
    if (from < t->count && t->pieces[from].owner == owner && t->pieces[from].start < start) {
        with[count] = t->pieces[from];
        with[count++].end = start;
    }
    if (mid)
        with[count++] = *mid;
    if (to > 0 && t->pieces[to - 1].owner == owner && t->pieces[to - 1].end > end) {
        with[count] = t->pieces[to - 1];
        with[count++].start = end;
    }
    replace(t, from, to, with, count);
}

static int try_lock(struct table *t, uint32_t owner, uint64_t start, uint64_t len, enum kind kind)
{
    const struct piece *found = NULL;
    uint64_t end = start + len, byte = 0;
    for (size_t i = 0; i < t->count; i++) {
        const struct piece *p = &t->pieces[i];
        if (p->owner != owner && p->start < end && start < p->end && (p->kind == WRITE || kind == WRITE)) {
            uint64_t at = p->start > start ? p->start : start;
            if (!found || at < byte) {
                found = p;
                byte = at;
            }
        }
    }
    if (found)
        return 0;
    struct piece mid = { start, end, owner, kind };
    put(t, owner, start, end, &mid);
    return 1;
}

int main(int argc, char **argv)
{
    uint32_t rounds = argc > 1 ? strtoul(argv[1], NULL, 10) : 1000, granted = 0, refused = 0;
    struct table t = { NULL, 0, 0 };
    for (uint32_t owner = 0; owner < 1000; owner++) {
        try_lock(&t, owner, 168 + 4 * (uint64_t)owner, 1, WRITE);
        try_lock(&t, owner, 8192 + 64 * (uint64_t)owner, 1, READ);
        try_lock(&t, owner, 1000000 + 128 * (uint64_t)owner, 24, READ);
    }
    for (uint32_t round = 0; round < rounds; round++) {
        uint32_t owner = (uint64_t)round * 7919 % 1000;
        uint64_t start = round % 8 == 0 ? 168 + 4 * ((uint64_t)round * 31 % 1000)
                                        : 200000 + 8 * ((uint64_t)round * 104729 % 5000);
        if (try_lock(&t, owner, start, 4, WRITE)) {
            put(&t, owner, start, start + 4, NULL);
            granted++;
        } else {
            refused++;
        }
    }
    printf("granted %u refused %u pieces %zu\n", granted, refused, t.count);
    return 0;
}
