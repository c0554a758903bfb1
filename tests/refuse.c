/* Makes calls of the C library fail in a program that is started with LD_PRELOAD of this file, as
   tests/hostile.py does. Each variable is a number; without it, or with 0, nothing is changed.

     C5_ALLOC=N       the Nth allocation fails, counted from 1
     C5_ALLOC_FROM=N  the Nth allocation and all later ones fail
     C5_READ=N        the Nth read of standard input fails
     C5_WRITE=N       the Nth write to standard output fails
     C5_SHORT=N       a read or write of these moves at most N bytes
     C5_REPORT=N      a byte is written to this file descriptor when a call is made to fail */
#define _GNU_SOURCE
#include <dlfcn.h>
#include <errno.h>
#include <stdatomic.h>
#include <stdlib.h>
#include <sys/uio.h>
#include <unistd.h>

static ssize_t (*real_read)(int, void *, size_t);
static ssize_t (*real_write)(int, const void *, size_t);

/* glibc's own names of its allocator: to look them up by dlsym may itself allocate. */
extern void *__libc_malloc(size_t);
extern void *__libc_calloc(size_t, size_t);
extern void *__libc_realloc(void *, size_t);
extern void *__libc_memalign(size_t, size_t);

static long alloc_at, alloc_from, read_at, write_at, most, report_to;
static atomic_long allocs, reads, writes;

static long number_of(const char *name) {
    const char *text = getenv(name);
    return text == NULL ? 0 : strtol(text, NULL, 10);
}

/* Before main: until then every count is 0 and nothing fails. */
__attribute__((constructor)) static void begin(void) {
    real_read = (ssize_t (*)(int, void *, size_t))dlsym(RTLD_NEXT, "read");
    real_write = (ssize_t (*)(int, const void *, size_t))dlsym(RTLD_NEXT, "write");
    read_at = number_of("C5_READ");
    write_at = number_of("C5_WRITE");
    most = number_of("C5_SHORT");
    report_to = number_of("C5_REPORT");
    alloc_at = number_of("C5_ALLOC");
    alloc_from = number_of("C5_ALLOC_FROM");
}

static void report(void) {
    if (report_to > 0) {
        ssize_t written = real_write((int)report_to, "x", 1);
        (void)written;
    }
}

static int is_refused(void) {
    if (alloc_at == 0 && alloc_from == 0) return 0;
    long number = atomic_fetch_add(&allocs, 1) + 1;
    if (number != alloc_at && (alloc_from == 0 || number < alloc_from)) return 0;
    report();
    errno = ENOMEM;
    return 1;
}

void *malloc(size_t size) { return is_refused() ? NULL : __libc_malloc(size); }
void *calloc(size_t count, size_t size) { return is_refused() ? NULL : __libc_calloc(count, size); }
void *realloc(void *at, size_t size) { return is_refused() ? NULL : __libc_realloc(at, size); }
void *memalign(size_t align, size_t size) {
    return is_refused() ? NULL : __libc_memalign(align, size);
}
void *aligned_alloc(size_t align, size_t size) {
    return is_refused() ? NULL : __libc_memalign(align, size);
}

int posix_memalign(void **to, size_t align, size_t size) {
    if (is_refused()) return ENOMEM;
    void *at = __libc_memalign(align, size);
    if (at == NULL) return ENOMEM;
    *to = at;
    return 0;
}

static int fails(atomic_long *count, long at) {
    if (atomic_fetch_add(count, 1) + 1 != at) return 0;
    report();
    errno = EIO;
    return 1;
}

static size_t shortened(size_t size) {
    return most > 0 && size > (size_t)most ? (size_t)most : size;
}

ssize_t read(int file, void *to, size_t size) {
    if (file != STDIN_FILENO) return real_read(file, to, size);
    return fails(&reads, read_at) ? -1 : real_read(file, to, shortened(size));
}

ssize_t write(int file, const void *from, size_t size) {
    if (file != STDOUT_FILENO) return real_write(file, from, size);
    return fails(&writes, write_at) ? -1 : real_write(file, from, shortened(size));
}

/* Other names of these calls, and calls with several pieces, which may move the first alone. */
ssize_t __read(int file, void *to, size_t size) { return read(file, to, size); }
ssize_t __write(int file, const void *from, size_t size) { return write(file, from, size); }

ssize_t readv(int file, const struct iovec *parts, int count) {
    return count < 1 ? 0 : read(file, parts[0].iov_base, parts[0].iov_len);
}

ssize_t writev(int file, const struct iovec *parts, int count) {
    return count < 1 ? 0 : write(file, parts[0].iov_base, parts[0].iov_len);
}
