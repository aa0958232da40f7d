/* Refuses what a program asks of the outside: memory, reads, writes, files to open. It is loaded before the C library (LD_PRELOAD).
 *
 * REFUSED_PROGRAM      the program that is meant, by its path; in every other process nothing is refused
 * REFUSED_COUNTS       a file of 14 numbers of 8 bytes, made by whoever starts the program: what was asked for so far, in the order of `counts`
 * REFUSED_MEMORY=K     refuses the K-th call that takes memory, and every one from it on with REFUSED_MEMORY=K..
 * REFUSED_SHARE=N,SEED refuses N of a million such calls, at random by the seed
 * REFUSED_THREADS=K    refuses the K-th start of a thread, and every one from it on with REFUSED_THREADS=K..
 * REFUSED_READ=K,E     the K-th read of standard input fails with the errno E; REFUSED_READ_MOST=N gives at most N bytes a read
 * REFUSED_WRITE=K,E    the same for writes to standard output; with E = 0 nothing is taken; REFUSED_WRITE_MOST=N takes at most N bytes a write
 * REFUSED_LOAD=K,E     the same for a file's open and its reads, counted together; REFUSED_LOAD_MOST=N
 * REFUSED_DISK=K,E     the same for a file's reads and writes at places, its cuts, syncs and locks, counted together; REFUSED_DISK_MOST=N for its writes
 *
 * A program that brings a memory allocator of its own (one built with checks of memory) jumps to it from its `malloc`; that jump is led past here.
 * Its checks ask where a thread's stack lies, and end the program where that has no memory: nothing is refused or counted within that call.
 */
#define _GNU_SOURCE
#include <dlfcn.h>
#include <errno.h>
#include <fcntl.h>
#include <limits.h>
#include <pthread.h>
#include <stdarg.h>
#include <stdatomic.h>
#include <stdint.h>
#include <stdio.h>
#include <stdlib.h>
#include <string.h>
#include <sys/mman.h>
#include <unistd.h>

extern void *__libc_malloc(size_t), *__libc_calloc(size_t, size_t), *__libc_realloc(void *, size_t), *__libc_memalign(size_t, size_t);

/* What is counted, and seen from outside also where the program is killed. `after` are reads and writes after the one that failed. */
struct counts {
    _Atomic uint64_t memory, refused, reads, writes, loads, read_bytes, written_bytes, after_read, after_write, after_load, threads, disk,
        after_disk, syncs;
};
static struct counts none, *counts = &none;
static int is_meant;
static __thread int asks_for_stack __attribute__((tls_model("initial-exec")));
static uint64_t memory_at, memory_from, thread_at, thread_from, share, seed, read_at, write_at, load_at, disk_at;
static int read_error, write_error, load_error, disk_error;
static size_t read_most = SIZE_MAX, write_most = SIZE_MAX, load_most = SIZE_MAX, disk_most = SIZE_MAX;

static uint64_t mixed(uint64_t number) {
    number += 0x9e3779b97f4a7c15u;
    number = (number ^ (number >> 30)) * 0xbf58476d1ce4e5b9u;
    number = (number ^ (number >> 27)) * 0x94d049bb133111ebu;
    return number ^ (number >> 31);
}

static int is_refused(void) {
    if (!is_meant || asks_for_stack) return 0;
    uint64_t at = atomic_fetch_add(&counts->memory, 1) + 1;
    int refused = at == memory_at || (memory_from && at >= memory_from) || (share && mixed(seed ^ mixed(at)) % 1000000 < share);
    if (refused) {
        atomic_fetch_add(&counts->refused, 1);
        errno = ENOMEM;
    }
    return refused;
}

/* ---- memory */

static void *(*own_malloc)(size_t) = __libc_malloc;
static void *(*own_calloc)(size_t, size_t) = __libc_calloc;
static void *(*own_realloc)(void *, size_t) = __libc_realloc;
static void *(*own_aligned)(size_t, size_t) = __libc_memalign;
static int (*own_posix)(void **, size_t, size_t);

static void *hook_malloc(size_t size) { return is_refused() ? NULL : own_malloc(size); }
static void *hook_calloc(size_t count, size_t size) { return is_refused() ? NULL : own_calloc(count, size); }
static void *hook_realloc(void *old, size_t size) { return is_refused() ? NULL : own_realloc(old, size); }
static void *hook_aligned(size_t align, size_t size) { return is_refused() ? NULL : own_aligned(align, size); }
static int hook_posix(void **into, size_t align, size_t size) {
    if (is_refused()) return ENOMEM;
    if (own_posix) return own_posix(into, align, size);
    void *got = own_aligned(align, size);
    if (!got) return ENOMEM;
    *into = got;
    return 0;
}

void *malloc(size_t size) { return hook_malloc(size); }
void *calloc(size_t count, size_t size) { return hook_calloc(count, size); }
void *realloc(void *old, size_t size) { return hook_realloc(old, size); }
void *aligned_alloc(size_t align, size_t size) { return hook_aligned(align, size); }
void *memalign(size_t align, size_t size) { return hook_aligned(align, size); }
int posix_memalign(void **into, size_t align, size_t size) { return hook_posix(into, align, size); }

/* Memory that is mapped past the allocator, as for the stack of a thread by the program itself; the C library's own maps don't come here. */
void *mmap(void *at, size_t size, int protection, int flags, int file, off_t from) {
    static void *(*next)(void *, size_t, int, int, int, off_t);
    if (!next) next = dlsym(RTLD_NEXT, "mmap");
    return (flags & MAP_ANONYMOUS) && is_refused() ? MAP_FAILED : next(at, size, protection, flags, file, from);
}

int pthread_getattr_np(pthread_t thread, pthread_attr_t *into) {
    static int (*next)(pthread_t, pthread_attr_t *);
    if (!next) next = dlsym(RTLD_NEXT, "pthread_getattr_np");
    asks_for_stack = 1;
    int failed = next(thread, into);
    asks_for_stack = 0;
    return failed;
}

int pthread_create(pthread_t *into, const pthread_attr_t *how, void *(*work)(void *), void *given) {
    static int (*next)(pthread_t *, const pthread_attr_t *, void *(*)(void *), void *);
    if (!next) next = dlsym(RTLD_NEXT, "pthread_create");
    if (is_meant) {
        uint64_t at = atomic_fetch_add(&counts->threads, 1) + 1;
        if (at == thread_at || (thread_from && at >= thread_from)) {
            atomic_fetch_add(&counts->refused, 1);
            return EAGAIN;
        }
    }
    return next(into, how, work, given);
}

#ifdef __x86_64__
/* A page within two gigabytes of the program, from which a short jump leads to any place. */
static unsigned char *page_near(uintptr_t program) {
    for (uintptr_t at = (program & ~(uintptr_t)0xfff) - (1u << 24); at > program - 0x70000000u; at -= 1u << 24) {
        void *page = mmap((void *)at, 4096, PROT_READ | PROT_WRITE | PROT_EXEC, MAP_PRIVATE | MAP_ANONYMOUS | MAP_FIXED_NOREPLACE, -1, 0);
        if (page == (void *)at) return page;
        if (page != MAP_FAILED) munmap(page, 4096);
    }
    return NULL;
}

/* Where `name` is the program's own and begins with a jump, leads the jump to `hook`, and gives where it led. */
static void *led_past(const char *name, void *hook, unsigned char **free_bytes) {
    Dl_info mine, its;
    unsigned char *entry = dlsym(RTLD_DEFAULT, name);
    if (!entry || !dladdr((void *)led_past, &mine) || !dladdr(entry, &its) || its.dli_fbase == mine.dli_fbase || *entry != 0xe9) return NULL;
    if (!*free_bytes && !(*free_bytes = page_near((uintptr_t)entry))) return NULL;
    int32_t distance;
    memcpy(&distance, entry + 1, 4);
    unsigned char *led = entry + 5 + distance, *step = *free_bytes;
    uint64_t target = (uint64_t)hook;
    memcpy(step, "\xff\x25\0\0\0\0", 6);
    memcpy(step + 6, &target, 8);
    *free_bytes += 16;
    distance = (int32_t)(step - (entry + 5));
    uintptr_t from = (uintptr_t)entry & ~(uintptr_t)0xfff;
    if (mprotect((void *)from, 8192, PROT_READ | PROT_WRITE | PROT_EXEC)) return NULL;
    memcpy(entry + 1, &distance, 4);
    mprotect((void *)from, 8192, PROT_READ | PROT_EXEC);
    return led;
}

static void lead_own_allocator(void) {
    unsigned char *free_bytes = NULL;
    void *led;
    if ((led = led_past("malloc", (void *)hook_malloc, &free_bytes))) own_malloc = led;
    if ((led = led_past("calloc", (void *)hook_calloc, &free_bytes))) own_calloc = led;
    if ((led = led_past("realloc", (void *)hook_realloc, &free_bytes))) own_realloc = led;
    if ((led = led_past("aligned_alloc", (void *)hook_aligned, &free_bytes))) own_aligned = led;
    if ((led = led_past("posix_memalign", (void *)hook_posix, &free_bytes))) own_posix = led;
}
#else
static void lead_own_allocator(void) {}
#endif

/* ---- reads, writes, files */

static ssize_t next_read(int file, void *into, size_t size) {
    static ssize_t (*next)(int, void *, size_t);
    if (!next) next = dlsym(RTLD_NEXT, "read");
    return next(file, into, size);
}

static ssize_t next_write(int file, const void *bytes, size_t size) {
    static ssize_t (*next)(int, const void *, size_t);
    if (!next) next = dlsym(RTLD_NEXT, "write");
    return next(file, bytes, size);
}

/* Whether this call, counted, is the one that fails; calls behind it are counted apart. */
static int fails(_Atomic uint64_t *calls, uint64_t failing, int error, _Atomic uint64_t *after) {
    uint64_t at = atomic_fetch_add(calls, 1) + 1;
    if (failing && at > failing) atomic_fetch_add(after, 1);
    if (at != failing) return 0;
    errno = error;
    return 1;
}

ssize_t read(int file, void *into, size_t size) {
    if (!is_meant) return next_read(file, into, size);
    if (file > 2) {
        if (fails(&counts->loads, load_at, load_error, &counts->after_load)) return -1;
        return next_read(file, into, size < load_most ? size : load_most);
    }
    if (file != 0) return next_read(file, into, size);
    if (fails(&counts->reads, read_at, read_error, &counts->after_read)) return -1;
    ssize_t got = next_read(file, into, size < read_most ? size : read_most);
    if (got > 0) atomic_fetch_add(&counts->read_bytes, got);
    return got;
}

ssize_t write(int file, const void *bytes, size_t size) {
    if (!is_meant || file != 1) return next_write(file, bytes, size);
    if (fails(&counts->writes, write_at, write_error, &counts->after_write)) return write_error ? -1 : 0;
    ssize_t taken = next_write(file, bytes, size < write_most ? size : write_most);
    if (taken > 0) atomic_fetch_add(&counts->written_bytes, taken);
    return taken;
}
ssize_t __write(int file, const void *bytes, size_t size) { return write(file, bytes, size); }

static int opened(int (*next)(const char *, int, ...), const char *name, int flags, int mode) {
    if (is_meant && fails(&counts->loads, load_at, load_error, &counts->after_load)) return -1;
    return next(name, flags, mode);
}

#define OPEN(NAME)                                                    \
    int NAME(const char *name, int flags, ...) {                      \
        static int (*next)(const char *, int, ...);                   \
        va_list more;                                                 \
        va_start(more, flags);                                        \
        int mode = flags & (O_CREAT | O_TMPFILE) ? va_arg(more, int) : 0; \
        va_end(more);                                                 \
        if (!next) next = dlsym(RTLD_NEXT, #NAME);                    \
        return opened(next, name, flags, mode);                       \
    }
OPEN(open)
OPEN(open64)

#define OPENAT(NAME)                                                  \
    int NAME(int folder, const char *name, int flags, ...) {          \
        static int (*next)(int, const char *, int, ...);              \
        va_list more;                                                 \
        va_start(more, flags);                                        \
        int mode = flags & (O_CREAT | O_TMPFILE) ? va_arg(more, int) : 0; \
        va_end(more);                                                 \
        if (!next) next = dlsym(RTLD_NEXT, #NAME);                    \
        if (is_meant && fails(&counts->loads, load_at, load_error, &counts->after_load)) return -1; \
        return next(folder, name, flags, mode);                       \
    }
OPENAT(openat)
OPENAT(openat64)

/* ---- a disk: a file that is read and written at places, cut, synced and locked */

static int disk_fails(void) { return is_meant && fails(&counts->disk, disk_at, disk_error, &counts->after_disk); }

#define READ_AT(NAME)                                                 \
    ssize_t NAME(int file, void *into, size_t size, off_t at) {       \
        static ssize_t (*next)(int, void *, size_t, off_t);           \
        if (!next) next = dlsym(RTLD_NEXT, #NAME);                    \
        return disk_fails() ? -1 : next(file, into, size, at);        \
    }
READ_AT(pread)
READ_AT(pread64)

#define WRITE_AT(NAME)                                                \
    ssize_t NAME(int file, const void *bytes, size_t size, off_t at) { \
        static ssize_t (*next)(int, const void *, size_t, off_t);     \
        if (!next) next = dlsym(RTLD_NEXT, #NAME);                    \
        if (disk_fails()) return -1;                                  \
        return next(file, bytes, is_meant && size > disk_most ? disk_most : size, at); \
    }
WRITE_AT(pwrite)
WRITE_AT(pwrite64)

#define CUT(NAME)                                                     \
    int NAME(int file, off_t length) {                                \
        static int (*next)(int, off_t);                               \
        if (!next) next = dlsym(RTLD_NEXT, #NAME);                    \
        return disk_fails() ? -1 : next(file, length);                \
    }
CUT(ftruncate)
CUT(ftruncate64)

int flock(int file, int how) {
    static int (*next)(int, int);
    if (!next) next = dlsym(RTLD_NEXT, "flock");
    return disk_fails() ? -1 : next(file, how);
}

#define SYNC(NAME)                                                    \
    int NAME(int file) {                                              \
        static int (*next)(int);                                      \
        if (!next) next = dlsym(RTLD_NEXT, #NAME);                    \
        if (is_meant) atomic_fetch_add(&counts->syncs, 1);            \
        return disk_fails() ? -1 : next(file);                        \
    }
SYNC(fsync)
SYNC(fdatasync)

/* ---- what is asked for by the environment */

static int call_and_error(const char *name, uint64_t *at) {
    char *word = getenv(name), *rest;
    if (!word) return 0;
    *at = strtoull(word, &rest, 10);
    return *rest == ',' ? atoi(rest + 1) : 0;
}

static void call_or_from(const char *name, uint64_t *at, uint64_t *from) {
    char *word = getenv(name), *rest;
    if (!word) return;
    uint64_t number = strtoull(word, &rest, 10);
    *(*rest ? from : at) = number;
}

static size_t most(const char *name) {
    char *word = getenv(name);
    return word ? strtoull(word, NULL, 10) : SIZE_MAX;
}

__attribute__((constructor)) static void begin(void) {
    char *program = getenv("REFUSED_PROGRAM"), *file = getenv("REFUSED_COUNTS"), *word, *rest;
    char here[PATH_MAX], there[PATH_MAX];
    ssize_t length = readlink("/proc/self/exe", here, sizeof here - 1);
    if (!program || !file || length < 0 || !realpath(program, there)) return;
    here[length] = 0;
    if (strcmp(here, there)) return;
    int opened = open(file, O_RDWR);
    if (opened < 0) return;
    void *shared = mmap(NULL, sizeof none, PROT_READ | PROT_WRITE, MAP_SHARED, opened, 0);
    close(opened);
    if (shared == MAP_FAILED) return;
    counts = shared;
    call_or_from("REFUSED_MEMORY", &memory_at, &memory_from);
    call_or_from("REFUSED_THREADS", &thread_at, &thread_from);
    if ((word = getenv("REFUSED_SHARE"))) {
        share = strtoull(word, &rest, 10);
        seed = *rest ? strtoull(rest + 1, NULL, 10) : 0;
    }
    read_error = call_and_error("REFUSED_READ", &read_at);
    write_error = call_and_error("REFUSED_WRITE", &write_at);
    load_error = call_and_error("REFUSED_LOAD", &load_at);
    disk_error = call_and_error("REFUSED_DISK", &disk_at);
    read_most = most("REFUSED_READ_MOST");
    write_most = most("REFUSED_WRITE_MOST");
    load_most = most("REFUSED_LOAD_MOST");
    disk_most = most("REFUSED_DISK_MOST");
    lead_own_allocator();
    is_meant = 1;
}
