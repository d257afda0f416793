/* Preloaded into a program by refused_memory.py. It counts the program's calls of one kind and lets one
   of them fail, or move no more than one byte.

   REFUSED_KIND    memory: malloc, calloc and realloc, which fail with ENOMEM
                   io: open, read and write, which fail with EIO
                   short: read and write of more than one byte, which move one
   REFUSED_CALL    the number of that call, from 1 */
#define _GNU_SOURCE
#include <errno.h>
#include <fcntl.h>
#include <stdarg.h>
#include <stdatomic.h>
#include <stdlib.h>
#include <string.h>
#include <sys/mman.h>
#include <sys/syscall.h>
#include <unistd.h>

/* glibc's own, which are not these. */
void *__libc_malloc(size_t size);
void *__libc_calloc(size_t count, size_t size);
void *__libc_realloc(void *block, size_t size);

enum kind { MEMORY, IO, SHORT };

static enum kind refused_kind;
static unsigned long refused_call;

/* The calls so far, in the file REFUSED_COUNT, which outlives the program however it ends. */
static _Atomic unsigned long *calls;

__attribute__((constructor)) static void begin(void)
{
	const char *kind = getenv("REFUSED_KIND");
	const char *call = getenv("REFUSED_CALL");
	const char *count = getenv("REFUSED_COUNT");
	if (!kind || !call || !count)
		return;
	refused_kind = !strcmp(kind, "memory") ? MEMORY : !strcmp(kind, "io") ? IO : SHORT;
	refused_call = strtoul(call, NULL, 10);
	int file = syscall(SYS_openat, AT_FDCWD, count, O_RDWR | O_CLOEXEC, 0);
	void *at = mmap(NULL, sizeof *calls, PROT_READ | PROT_WRITE, MAP_SHARED, file, 0);
	syscall(SYS_close, file);
	if (at != MAP_FAILED)
		calls = at;
}

static int is_refused(enum kind kind)
{
	return calls && kind == refused_kind && atomic_fetch_add(calls, 1) + 1 == refused_call;
}

void *malloc(size_t size)
{
	if (is_refused(MEMORY)) {
		errno = ENOMEM;
		return NULL;
	}
	return __libc_malloc(size);
}

void *calloc(size_t count, size_t size)
{
	if (is_refused(MEMORY)) {
		errno = ENOMEM;
		return NULL;
	}
	return __libc_calloc(count, size);
}

void *realloc(void *block, size_t size)
{
	if (is_refused(MEMORY)) {
		errno = ENOMEM;
		return NULL;
	}
	return __libc_realloc(block, size);
}

int open(const char *path, int flags, ...)
{
	if (is_refused(IO)) {
		errno = EIO;
		return -1;
	}
	va_list rest;
	va_start(rest, flags);
	mode_t mode = va_arg(rest, mode_t);
	va_end(rest);
	return syscall(SYS_openat, AT_FDCWD, path, flags, mode);
}

/* A read or a write. */
static ssize_t move(long number, int file, void *buffer, size_t length)
{
	if (is_refused(IO)) {
		errno = EIO;
		return -1;
	}
	if (length > 1 && is_refused(SHORT))
		length = 1;
	return syscall(number, file, buffer, length);
}

ssize_t read(int file, void *buffer, size_t length)
{
	return move(SYS_read, file, buffer, length);
}

ssize_t write(int file, const void *buffer, size_t length)
{
	return move(SYS_write, file, (void *)buffer, length);
}

ssize_t __write(int file, const void *buffer, size_t length)
{
	return move(SYS_write, file, (void *)buffer, length);
}
