/* Refuses one call of the C library to the program that is run over it: the growth, the read, or the write to standard output with
   this number. `bench/refusals` builds it, and LD_PRELOAD loads it.

   The words of the environment are REFUSE_GROWTH, REFUSE_READ and REFUSE_WRITE (the call fails), SHORT_READ and SHORT_WRITE (it moves
   one octet), and REFUSALS_TOLD, the file that gets the counts of the three at the end. */
#define _GNU_SOURCE
#include <dlfcn.h>
#include <errno.h>
#include <fcntl.h>
#include <stdio.h>
#include <stdlib.h>
#include <string.h>
#include <unistd.h>

static unsigned long growths, reads, writes;
static unsigned long refused_growth, refused_read, refused_write, short_read, short_write;
static int is_begun;

static unsigned long number_of(const char *name)
{
    const char *text = getenv(name);
    return text ? strtoul(text, NULL, 10) : 0;
}

__attribute__((constructor)) static void begin(void)
{
    refused_growth = number_of("REFUSE_GROWTH");
    refused_read = number_of("REFUSE_READ");
    refused_write = number_of("REFUSE_WRITE");
    short_read = number_of("SHORT_READ");
    short_write = number_of("SHORT_WRITE");
    is_begun = 1;
}

__attribute__((destructor)) static void end(void)
{
    const char *path = getenv("REFUSALS_TOLD");
    char text[96];
    is_begun = 0;
    if (!path)
        return;
    int file = open(path, O_WRONLY | O_CREAT | O_TRUNC, 0600);
    if (file < 0)
        return;
    int length = snprintf(text, sizeof text, "%lu %lu %lu\n", growths, reads, writes);
    ssize_t (*call)(int, const void *, size_t) = dlsym(RTLD_NEXT, "write");
    if (call(file, text, (size_t)length) < 0)
        _exit(9);
    close(file);
}

/* Whether this growth is to be refused. */
static int is_refused(void)
{
    return is_begun && ++growths == refused_growth;
}

extern void *__libc_malloc(size_t);
extern void *__libc_calloc(size_t, size_t);
extern void *__libc_realloc(void *, size_t);
extern void *__libc_memalign(size_t, size_t);

void *malloc(size_t size)
{
    return is_refused() ? NULL : __libc_malloc(size);
}

void *calloc(size_t count, size_t size)
{
    return is_refused() ? NULL : __libc_calloc(count, size);
}

void *realloc(void *old, size_t size)
{
    return is_refused() ? NULL : __libc_realloc(old, size);
}

void *aligned_alloc(size_t alignment, size_t size)
{
    return is_refused() ? NULL : __libc_memalign(alignment, size);
}

int posix_memalign(void **given, size_t alignment, size_t size)
{
    void *room = is_refused() ? NULL : __libc_memalign(alignment, size);
    if (!room)
        return ENOMEM;
    *given = room;
    return 0;
}

ssize_t read(int file, void *room, size_t length)
{
    static ssize_t (*call)(int, void *, size_t);
    if (!call)
        call = dlsym(RTLD_NEXT, "read");
    unsigned long number = is_begun ? ++reads : 0;
    if (number && number == refused_read) {
        errno = EIO;
        return -1;
    }
    return call(file, room, number && number == short_read && length > 1 ? 1 : length);
}

ssize_t pread64(int file, void *room, size_t length, off_t from)
{
    static ssize_t (*call)(int, void *, size_t, off_t);
    if (!call)
        call = dlsym(RTLD_NEXT, "pread64");
    unsigned long number = is_begun ? ++reads : 0;
    if (number && number == refused_read) {
        errno = EIO;
        return -1;
    }
    return call(file, room, number && number == short_read && length > 1 ? 1 : length, from);
}

ssize_t pread(int file, void *room, size_t length, off_t from)
{
    return pread64(file, room, length, from);
}

ssize_t write(int file, const void *octets, size_t length)
{
    static ssize_t (*call)(int, const void *, size_t);
    if (!call)
        call = dlsym(RTLD_NEXT, "write");
    unsigned long number = is_begun && file == STDOUT_FILENO ? ++writes : 0;
    if (number && number == refused_write) {
        errno = EIO;
        return -1;
    }
    return call(file, octets, number && number == short_write && length > 1 ? 1 : length);
}
