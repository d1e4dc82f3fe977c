/* The two hashes of tdb over the buffer that bench words hashes, for comparison: gcc -O2 -o hash hash.c, then ./hash MIB.
 * With no argument it hashes 1 MiB and prints the first lines of the file stdout. */
#include <stdint.h>
#include <stdio.h>
#include <stdlib.h>
#include <string.h>
#include <time.h>

static uint32_t rot(uint32_t x, int k) { return (x << k) | (x >> (32 - k)); }

static uint32_t old_hash(const unsigned char *key, uint32_t length)
{
	uint32_t value = 0x238F13AF * length;
	for (uint32_t i = 0; i < length; i++)
		value = value + ((uint32_t)key[i] << (i * 5 % 24));
	return 1103515243 * value + 12345;
}

static uint32_t jenkins_hash(const unsigned char *key, uint32_t length)
{
	uint32_t a, b, c, w[3];
	unsigned char last[12] = {0};
	a = b = c = 0xDEADBEEF + length;
	for (; length > 12; length -= 12, key += 12) {
		memcpy(w, key, 12);
		a += w[0]; b += w[1]; c += w[2];
		a -= c; a ^= rot(c, 4); c += b;
		b -= a; b ^= rot(a, 6); a += c;
		c -= b; c ^= rot(b, 8); b += a;
		a -= c; a ^= rot(c, 16); c += b;
		b -= a; b ^= rot(a, 19); a += c;
		c -= b; c ^= rot(b, 4); b += a;
	}
	if (length == 0)
		return c;
	memcpy(last, key, length);
	memcpy(w, last, 12);
	a += w[0]; b += w[1]; c += w[2];
	c ^= b; c -= rot(b, 14);
	a ^= c; a -= rot(c, 11);
	b ^= a; b -= rot(a, 25);
	c ^= b; c -= rot(b, 16);
	a ^= c; a -= rot(c, 4);
	b ^= a; b -= rot(a, 14);
	c ^= b; c -= rot(b, 24);
	return c;
}

static double now(void)
{
	struct timespec t;
	clock_gettime(CLOCK_MONOTONIC, &t);
	return t.tv_sec * 1e3 + t.tv_nsec / 1e6;
}

int main(int argc, char **argv)
{
	uint32_t length = (argc > 1 ? atoi(argv[1]) : 1) * 1048576u;
	unsigned char *bytes = malloc(length);
	uint32_t state = 1;
	if (!bytes)
		return 1;
	for (uint32_t i = 0; i < length; i++) {
		state = state * 1664525 + 1013904223;
		bytes[i] = state >> 24;
	}
	double start = now();
	uint32_t old = old_hash(bytes, length);
	double between = now();
	uint32_t jenkins = jenkins_hash(bytes, length);
	double end = now();
	if (argc > 1)
		printf("Old %08X %.0f ms\nJenkins %08X %.0f ms\n", old, between - start, jenkins, end - between);
	else
		printf("Old %08X\nJenkins %08X\n", old, jenkins);
	return 0;
}
