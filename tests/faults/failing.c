/*
 * Makes growths of memory, reads and writes of a program fail: a library for LD_PRELOAD, by whose names the program comes
 * here before it comes to the C library. failing.py compiles it and runs the program over it, and growing_calls.py the tests
 * of crates/bd_growth_tests and crates/bd_wide_growth_tests.
 *
 * Calls are counted from 1, from the moment at which this library is ready: after the loader and before main, so that all
 * that the program itself asks for is counted. What is not in the environment is left alone.
 *
 *   FAILING_GROWTH=N     the Nth growth of memory is refused
 *   FAILING_ONWARD=1     and each one after it
 *   FAILING_INPUT=D      the descriptor of the reads below
 *   FAILING_READ=N       the Nth read fails
 *   FAILING_PAUSE=N      the process stops itself before the Nth read, until SIGCONT comes
 *   FAILING_OUTPUT=D     the descriptor of the writes below
 *   FAILING_WRITE=N      the Nth write fails
 *   FAILING_ERROR=E      with the error of this number; with 0 it answers that it took 0 bytes, or has none
 *   FAILING_SINGLE=1     each read and each write is of one byte at most
 *   FAILING_COUNTS=FILE  where the counts are kept, as a struct of the C below; it stays when the program is killed
 *
 * The descriptors are 0, 1, 2, and 3 for every other one.
 */
#define _GNU_SOURCE
#include <errno.h>
#include <fcntl.h>
#include <signal.h>
#include <stddef.h>
#include <stdint.h>
#include <stdlib.h>
#include <sys/mman.h>
#include <sys/syscall.h>
#include <unistd.h>

enum { DESCRIPTORS = 4 };

struct counts {
	int64_t ready;              /* 1 */
	int64_t growths;            /* the calls that ask for memory */
	int64_t refused;            /* those that were refused */
	int64_t reads[DESCRIPTORS]; /* the calls, the failed ones too */
	int64_t given[DESCRIPTORS]; /* the bytes that were read */
	int64_t writes[DESCRIPTORS];
	int64_t taken[DESCRIPTORS]; /* the bytes that were written */
};

static struct counts none;
static struct counts *counts = &none;
static long growth, onward, input, failing_read, pause_at, output, failing_write, error, single;

/* The C library's own, under the names that it keeps for libraries such as this one. */
extern void *__libc_malloc(size_t);
extern void *__libc_calloc(size_t, size_t);
extern void *__libc_realloc(void *, size_t);
extern void *__libc_memalign(size_t, size_t);

static long number(const char *name)
{
	const char *text = getenv(name);
	return text ? atol(text) : 0;
}

__attribute__((constructor)) static void ready(void)
{
	const char *file = getenv("FAILING_COUNTS");
	int descriptor = file ? open(file, O_RDWR | O_CLOEXEC) : -1;
	if (descriptor >= 0) {
		void *map = mmap(NULL, sizeof *counts, PROT_READ | PROT_WRITE, MAP_SHARED, descriptor, 0);
		if (map != MAP_FAILED)
			counts = map;
		close(descriptor);
	}
	growth = number("FAILING_GROWTH");
	onward = number("FAILING_ONWARD");
	input = number("FAILING_INPUT");
	failing_read = number("FAILING_READ");
	pause_at = number("FAILING_PAUSE");
	output = number("FAILING_OUTPUT");
	failing_write = number("FAILING_WRITE");
	error = number("FAILING_ERROR");
	single = number("FAILING_SINGLE");
	counts->ready = 1;
}

/* Whether this growth is refused. */
static int refused(void)
{
	if (!counts->ready)
		return 0;
	int64_t at = ++counts->growths;
	if (growth == 0 || (onward ? at < growth : at != growth))
		return 0;
	counts->refused++;
	errno = ENOMEM;
	return 1;
}

void *malloc(size_t size)
{
	return refused() ? NULL : __libc_malloc(size);
}

void *calloc(size_t many, size_t size)
{
	return refused() ? NULL : __libc_calloc(many, size);
}

void *realloc(void *old, size_t size)
{
	return refused() ? NULL : __libc_realloc(old, size);
}

void *memalign(size_t alignment, size_t size)
{
	return refused() ? NULL : __libc_memalign(alignment, size);
}

void *aligned_alloc(size_t alignment, size_t size)
{
	return memalign(alignment, size);
}

int posix_memalign(void **place, size_t alignment, size_t size)
{
	void *memory = memalign(alignment, size);
	if (memory == NULL)
		return ENOMEM;
	*place = memory;
	return 0;
}

static int slot(int descriptor)
{
	return descriptor >= 0 && descriptor < DESCRIPTORS ? descriptor : DESCRIPTORS - 1;
}

/* What a call that fails answers. */
static ssize_t failed(void)
{
	errno = (int)error;
	return error ? -1 : 0;
}

ssize_t read(int descriptor, void *room, size_t size)
{
	int at = slot(descriptor);
	int64_t call = ++counts->reads[at];
	if (at == input && call == pause_at)
		raise(SIGSTOP);
	if (at == input && call == failing_read)
		return failed();
	ssize_t got = syscall(SYS_read, descriptor, room, single && size > 1 ? 1 : size);
	if (got > 0)
		counts->given[at] += got;
	return got;
}

ssize_t write(int descriptor, const void *bytes, size_t size)
{
	int at = slot(descriptor);
	int64_t call = ++counts->writes[at];
	if (at == output && call == failing_write)
		return failed();
	ssize_t put = syscall(SYS_write, descriptor, bytes, single && size > 1 ? 1 : size);
	if (put > 0)
		counts->taken[at] += put;
	return put;
}
