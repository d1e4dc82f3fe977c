/* Changes a file by the stock library, plainly and in transactions, and dies at one of its writes.
 *
 * Usage: dying FILE SEED CHANGES [WRITES [half]]. It makes so many changes, which follow from SEED, and is killed
 * before the write behind so many, or with `half` behind the first half of its words. Without WRITES it goes on to its
 * end, and prints how many writes there were.
 *
 * Build: cc -O2 -rdynamic -o dying dying.c -ltdb -ldl
 */
#define _GNU_SOURCE
#include <dlfcn.h>
#include <fcntl.h>
#include <signal.h>
#include <stdio.h>
#include <stdlib.h>
#include <string.h>
#include <sys/types.h>
#include <tdb.h>
#include <unistd.h>

static long writes, last = -1;
static int half;

/* The library writes by this call, since the file isn't mapped. */
ssize_t pwrite64(int fd, const void *bytes, size_t size, off64_t at)
{
	static ssize_t (*real)(int, const void *, size_t, off64_t);

	if (!real)
		real = dlsym(RTLD_NEXT, "pwrite64");
	if (writes++ == last) {
		if (half)
			real(fd, bytes, size / 2 & ~(size_t)3, at);
		kill(getpid(), SIGKILL);
	}
	return real(fd, bytes, size, at);
}

ssize_t pwrite(int fd, const void *bytes, size_t size, off_t at)
{
	return pwrite64(fd, bytes, size, at);
}

/* Stores or deletes one of 60 keys. */
static void change(struct tdb_context *tdb)
{
	static char value[6000];
	char name[16];
	int is_long = rand() % 8 == 0;
	TDB_DATA key = { (unsigned char *)name, 0 };
	TDB_DATA data = { (unsigned char *)value, rand() % (is_long ? 6000 : 60) };

	key.dsize = sprintf(name, "key%d", rand() % 60);
	memset(value, 'a' + rand() % 26, data.dsize);
	if (rand() % 3)
		tdb_store(tdb, key, data, TDB_REPLACE);
	else
		tdb_delete(tdb, key);
}

static void commit(struct tdb_context *tdb)
{
	int count = 1 + rand() % 8;

	tdb_transaction_start(tdb);
	while (count--)
		change(tdb);
	tdb_transaction_commit(tdb);
}

int main(int argc, char **argv)
{
	struct tdb_context *tdb;
	int changes = atoi(argv[3]);
	int flags = TDB_NOMMAP | (atoi(argv[2]) % 2 ? TDB_INCOMPATIBLE_HASH : 0) | (atoi(argv[2]) % 3 ? 0 : TDB_CONVERT);

	srand(atoi(argv[2]));
	if (argc > 4)
		last = atol(argv[4]);
	half = argc > 5;
	tdb = tdb_open(argv[1], 7, flags, O_RDWR | O_CREAT, 0600);
	if (!tdb)
		return 1;
	while (changes--) {
		if (rand() % 2)
			commit(tdb);
		else
			change(tdb);
	}
	tdb_close(tdb);
	printf("%ld\n", writes);
	return 0;
}
