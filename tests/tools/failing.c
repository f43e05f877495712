/* A library that is loaded before the C library: of the calls on standard input and standard output, and of the takings of
   memory, the one that the environment numbers fails, or each moves one byte. Counted from 1; 0 or nothing: none.
   FAIL_READ, FAIL_WRITE, FAIL_MEMORY: the number of the call. SHORT: one byte a call. */
#define _GNU_SOURCE
#include <dlfcn.h>
#include <errno.h>
#include <stdlib.h>
#include <sys/uio.h>
#include <unistd.h>
#include <sys/syscall.h>

static long number_of(const char *name)
{
    const char *text = getenv(name);
    return text ? strtol(text, 0, 10) : 0;
}

static int fails(long *calls, const char *name)
{
    return ++*calls == number_of(name);
}

static size_t moved(size_t asked)
{
    return asked > 1 && getenv("SHORT") ? 1 : asked;
}

ssize_t read(int file, void *bytes, size_t length)
{
    static long calls;
    if (file == 0 && fails(&calls, "FAIL_READ")) {
        errno = EIO;
        return -1;
    }
    return syscall(SYS_read, file, bytes, file == 0 ? moved(length) : length);
}

ssize_t write(int file, const void *bytes, size_t length)
{
    static long calls;
    if (file == 1 && fails(&calls, "FAIL_WRITE")) {
        errno = EIO;
        return -1;
    }
    return syscall(SYS_write, file, bytes, file == 1 ? moved(length) : length);
}

ssize_t writev(int file, const struct iovec *parts, int count)
{
    return count ? write(file, parts[0].iov_base, parts[0].iov_len) : 0;
}

/* Only what the program takes is counted: the first call of main's is behind the start of the process. */
static long taken;

extern void *__libc_malloc(size_t);
extern void *__libc_calloc(size_t, size_t);
extern void *__libc_realloc(void *, size_t);
extern void *__libc_memalign(size_t, size_t);

void *malloc(size_t size)
{
    return fails(&taken, "FAIL_MEMORY") ? 0 : __libc_malloc(size);
}

void *calloc(size_t count, size_t size)
{
    return fails(&taken, "FAIL_MEMORY") ? 0 : __libc_calloc(count, size);
}

void *realloc(void *old, size_t size)
{
    return fails(&taken, "FAIL_MEMORY") ? 0 : __libc_realloc(old, size);
}

void *aligned_alloc(size_t alignment, size_t size)
{
    return fails(&taken, "FAIL_MEMORY") ? 0 : __libc_memalign(alignment, size);
}

int posix_memalign(void **place, size_t alignment, size_t size)
{
    if (fails(&taken, "FAIL_MEMORY")) return ENOMEM;
    *place = __libc_memalign(alignment, size);
    return *place ? 0 : ENOMEM;
}
