/* Preloaded into a program, or linked into it: counts how often it asks the C library for memory, reads and
   writes, and refuses what the environment names, or what the program names by refuse_requests.

   REFUSED=N         the request for memory of number N gets none
   REFUSED_FROM=N    neither does any later one
   FAILED_READ=N     the read of number N fails, and FAILED_WRITE=N the write
   MOST_BYTES=N      no read or write moves more bytes
   COUNTS=FILE       where the numbers of requests, reads and writes are written at the end, and how
                     many blocks are not freed

   A program that reads its processor time before and after what it measures writes on standard error
   how many requests it made between the first two readings. */
#define _GNU_SOURCE
#include <errno.h>
#include <stddef.h>
#include <stdio.h>
#include <stdlib.h>
#include <sys/syscall.h>
#include <time.h>
#include <unistd.h>

extern void *__libc_malloc(size_t);
extern void *__libc_calloc(size_t, size_t);
extern void *__libc_realloc(void *, size_t);
extern void *__libc_memalign(size_t, size_t);
extern void __libc_free(void *);

static unsigned long requests, reads, writes, readings;
static long blocks; /* given and not freed: exact for one thread */
static int is_over;

static unsigned long number_in(const char *name) {
    const char *text = getenv(name);
    return text ? strtoul(text, NULL, 10) : 0;
}

/* The first request that is refused, and how many are. */
static unsigned long refused_from, refused_count;

static int is_refused(void) {
    static int is_read;
    if (!is_read && number_in("REFUSED_FROM")) refused_from = number_in("REFUSED_FROM"), refused_count = -1ul;
    if (!is_read && number_in("REFUSED")) refused_from = number_in("REFUSED"), refused_count = 1;
    is_read = 1;
    requests++;
    return !is_over && refused_from && requests >= refused_from && requests - refused_from < refused_count;
}

/* Counts requests and blocks anew, and refuses so many requests from the one of this number on. */
void refuse_requests(unsigned long from, unsigned long count) {
    requests = 0;
    blocks = 0;
    refused_from = from;
    refused_count = count;
}

unsigned long count_requests(void) { return requests; }

/* How many blocks were given and are not freed. */
long count_blocks(void) { return blocks; }

static void *counted(void *block) {
    blocks += block != NULL;
    return block;
}

void *malloc(size_t size) { return is_refused() ? NULL : counted(__libc_malloc(size)); }

void *calloc(size_t count, size_t size) {
    return is_refused() ? NULL : counted(__libc_calloc(count, size));
}

void *realloc(void *block, size_t size) {
    if (is_refused())
        return NULL;
    void *given = __libc_realloc(block, size);
    blocks += (given != NULL) - (block != NULL && (given != NULL || size == 0));
    return given;
}

void *aligned_alloc(size_t alignment, size_t size) {
    return is_refused() ? NULL : counted(__libc_memalign(alignment, size));
}

int posix_memalign(void **block, size_t alignment, size_t size) {
    *block = is_refused() ? NULL : counted(__libc_memalign(alignment, size));
    return *block == NULL ? ENOMEM : 0;
}

void free(void *block) {
    blocks -= block != NULL;
    __libc_free(block);
}

static size_t at_most(size_t size) {
    unsigned long most = number_in("MOST_BYTES");
    return most && most < size ? most : size;
}

ssize_t read(int file, void *bytes, size_t size) {
    reads++;
    if (reads == number_in("FAILED_READ")) {
        errno = EIO;
        return -1;
    }
    return syscall(SYS_read, file, bytes, at_most(size));
}

ssize_t write(int file, const void *bytes, size_t size) {
    writes++;
    if (writes == number_in("FAILED_WRITE")) {
        errno = EIO;
        return -1;
    }
    return syscall(SYS_write, file, bytes, at_most(size));
}

int clock_gettime(clockid_t clock, struct timespec *time) {
    int failed = (int)syscall(SYS_clock_gettime, clock, time);
    if (clock == CLOCK_THREAD_CPUTIME_ID) {
        static unsigned long before;
        readings++;
        if (readings == 1)
            before = requests;
        if (readings == 2)
            dprintf(STDERR_FILENO, "%lu\n", requests - before);
    }
    return failed;
}

__attribute__((destructor)) static void tell(void) {
    const char *name = getenv("COUNTS");
    unsigned long made = requests;
    long left = blocks;
    is_over = 1;
    FILE *file = name ? fopen(name, "w") : NULL;
    if (file) {
        fprintf(file, "%lu %lu %lu %ld\n", made, reads, writes, left);
        fclose(file);
    }
}
