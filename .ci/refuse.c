/* Refuses memory, or makes reads and writes fail or come short; preloaded into the program by .ci/refused.py.
 *
 *   cc -O1 -shared -fPIC -o refuse.so refuse.c
 *   REFUSE=memory REFUSE_AT=7 LD_PRELOAD=./refuse.so pvgate replay < script
 *
 * REFUSE        memory, read (of standard input), file (a read of another one) or write (to standard output)
 * REFUSE_AT     which call it is, counted from 1
 * REFUSE_ON     if set, each call from there on, too
 * REFUSE_SHORT  a read or write doesn't fail, but takes at most so many bytes
 * REFUSE_COUNT  a descriptor of a file of 8 bytes, in which the calls are counted
 */
#include <errno.h>
#include <stddef.h>
#include <stdlib.h>
#include <string.h>
#include <sys/mman.h>
#include <sys/syscall.h>
#include <unistd.h>

extern void *__libc_malloc(size_t), *__libc_realloc(void *, size_t), *__libc_calloc(size_t, size_t), *__libc_memalign(size_t, size_t);

static unsigned long own, *calls = &own, at, shorter;
static const char *what = "";
static int from_there_on;

static unsigned long number(const char *name) {
    const char *text = getenv(name);
    return text ? strtoul(text, NULL, 10) : 0;
}

__attribute__((constructor)) static void begin(void) {
    at = number("REFUSE_AT"), shorter = number("REFUSE_SHORT"), from_there_on = getenv("REFUSE_ON") != NULL;
    if (getenv("REFUSE_COUNT")) {
        void *page = mmap(NULL, sizeof *calls, PROT_READ | PROT_WRITE, MAP_SHARED, (int)number("REFUSE_COUNT"), 0);
        calls = page == MAP_FAILED ? &own : page;
    }
    what = getenv("REFUSE") ? getenv("REFUSE") : "";
}

/* Whether this call of the kind is one of those that are meant. */
static int is_meant(const char *kind) {
    if (strcmp(kind, what) != 0)
        return 0;
    unsigned long call = __atomic_add_fetch(calls, 1, __ATOMIC_RELAXED);
    return at != 0 && (call == at || (from_there_on && call > at));
}

static int is_refused(void) {
    if (!is_meant("memory"))
        return 0;
    errno = ENOMEM;
    return 1;
}

void *malloc(size_t size) { return is_refused() ? NULL : __libc_malloc(size); }
void *realloc(void *old, size_t size) { return is_refused() ? NULL : __libc_realloc(old, size); }
void *calloc(size_t count, size_t size) { return is_refused() ? NULL : __libc_calloc(count, size); }
void *memalign(size_t align, size_t size) { return is_refused() ? NULL : __libc_memalign(align, size); }
void *aligned_alloc(size_t align, size_t size) { return memalign(align, size); }

int posix_memalign(void **place, size_t align, size_t size) {
    void *got = memalign(align, size);
    return got ? (*place = got, 0) : ENOMEM;
}

static ssize_t moved(const char *kind, long call, int file, void *bytes, size_t size) {
    if (is_meant(kind)) {
        if (shorter == 0) {
            errno = EIO;
            return -1;
        }
        size = size < shorter ? size : shorter;
    }
    return syscall(call, file, bytes, size);
}

ssize_t read(int file, void *bytes, size_t size) { return moved(file == 0 ? "read" : "file", SYS_read, file, bytes, size); }

ssize_t write(int file, const void *bytes, size_t size) {
    return moved(file == 1 ? "write" : "other", SYS_write, file, (void *)bytes, size);
}
