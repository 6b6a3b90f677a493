// A library to be loaded before a program: the allocation whose number FAIL_ALLOC is fails, counted from 1 over malloc,
// calloc, realloc and aligned_alloc. With FAIL_FROM set, all that follow fail too. COUNT_TO names a file for their count.
#define _GNU_SOURCE
#include <errno.h>
#include <fcntl.h>
#include <stdio.h>
#include <stdlib.h>
#include <unistd.h>

static unsigned long count, fail;
static int from;

__attribute__((constructor)) static void begin(void) {
	const char *n = getenv("FAIL_ALLOC");
	from = getenv("FAIL_FROM") != NULL;
	count = 0;
	fail = n ? strtoul(n, NULL, 10) : 0;
}

__attribute__((destructor)) static void end(void) {
	const char *path = getenv("COUNT_TO");
	char text[32];
	if (!path) return;
	int f = open(path, O_WRONLY | O_CREAT | O_TRUNC, 0644);
	if (f < 0) return;
	int n = snprintf(text, sizeof text, "%lu\n", count);
	if (write(f, text, n) < 0) return;
	close(f);
}

static int fails(void) {
	count++;
	if (fail && (count == fail || (from && count > fail))) {
		errno = ENOMEM;
		return 1;
	}
	return 0;
}

extern void *__libc_malloc(size_t);
extern void *__libc_calloc(size_t, size_t);
extern void *__libc_realloc(void *, size_t);
extern void *__libc_memalign(size_t, size_t);

void *malloc(size_t n) { return fails() ? NULL : __libc_malloc(n); }
void *calloc(size_t n, size_t m) { return fails() ? NULL : __libc_calloc(n, m); }
void *realloc(void *p, size_t n) { return fails() ? NULL : __libc_realloc(p, n); }
void *aligned_alloc(size_t a, size_t n) { return fails() ? NULL : __libc_memalign(a, n); }
int posix_memalign(void **p, size_t a, size_t n) {
	if (fails()) return ENOMEM;
	*p = __libc_memalign(a, n);
	return *p ? 0 : ENOMEM;
}
