/* Refuses requests for memory or for threads, writes or reads: preloaded into a program, it counts what the program asks for
 * after its start, and refuses one request of them, or that one and all later ones. For tests alone; nothing here is part of
 * the program.
 *
 * REFUSE_AT=N       the request that is refused, from 1 on; without it none is
 * REFUSE_ON=1       and all later ones too
 * REFUSE_SHORT=1    that write or read moves a half of its bytes, and the next one is refused
 * REFUSE_THREADS=1  threads are counted and refused, and memory isn't
 * REFUSE_WRITES=1   writes to standard output are counted and refused, and memory isn't
 * REFUSE_READS=1    reads of standard input are counted and refused, and memory isn't
 * REFUSE_STEP=N     a write or read that is counted moves N bytes at the most
 * REFUSE_EMPTY=1    a write that is refused says that it took no byte, which is no error
 * REFUSE_TOLD=1     only what is asked for between two marks counts, each a request of a size that nothing else asks for; the
 *                   mark that begins says by its size which request is refused
 * REFUSE_COUNT=PATH a file of 8 bytes, which holds the number of requests so far, also where the program is killed; with
 *                   REFUSE_TOLD the number of pairs of marks so far, and after it, as far as the file goes, the requests in each
 */
#define _GNU_SOURCE
#include <dlfcn.h>
#include <errno.h>
#include <fcntl.h>
#include <pthread.h>
#include <stdatomic.h>
#include <stdint.h>
#include <stdlib.h>
#include <sys/mman.h>
#include <sys/stat.h>
#include <sys/syscall.h>
#include <sys/uio.h>
#include <unistd.h>

/* The marks, in bytes: this size ends, and begins with the number of the request that is refused added to it. */
static const size_t MARK_TOLD = (size_t)1 << 46, MOST_TOLD = 1 << 20;

/* glibc's own names of what is replaced here. */
extern void *__libc_malloc(size_t size);
extern void *__libc_calloc(size_t count, size_t size);
extern void *__libc_realloc(void *old, size_t size);
extern void *__libc_memalign(size_t alignment, size_t size);

static _Atomic uint64_t *count;
static uint64_t first;
static int later;
static int halved;
static size_t step;
static int empty;
static enum { MEMORY, THREADS, WRITES, READS } refusing;
static int told;
static atomic_int counting;
static _Atomic uint64_t counted;
static uint64_t pairs;
static uint64_t most_pairs;

__attribute__((constructor)) static void begin(void) {
    const char *at = getenv("REFUSE_AT");
    const char *path = getenv("REFUSE_COUNT");
    if (path == NULL) return;
    int file = open(path, O_RDWR | O_CLOEXEC);
    if (file < 0) return;
    struct stat stat;
    if (fstat(file, &stat) != 0 || stat.st_size < (off_t)sizeof *count) {
        close(file);
        return;
    }
    void *page = mmap(NULL, stat.st_size, PROT_READ | PROT_WRITE, MAP_SHARED, file, 0);
    close(file);
    if (page == MAP_FAILED) return;
    most_pairs = stat.st_size / sizeof *count - 1;
    first = at == NULL ? 0 : strtoull(at, NULL, 10);
    later = getenv("REFUSE_ON") != NULL;
    halved = getenv("REFUSE_SHORT") != NULL;
    empty = getenv("REFUSE_EMPTY") != NULL;
    step = getenv("REFUSE_STEP") == NULL ? 0 : strtoull(getenv("REFUSE_STEP"), NULL, 10);
    if (getenv("REFUSE_THREADS") != NULL) refusing = THREADS;
    if (getenv("REFUSE_WRITES") != NULL) refusing = WRITES;
    if (getenv("REFUSE_READS") != NULL) refusing = READS;
    told = getenv("REFUSE_TOLD") != NULL;
    counting = !told;
    count = page;
}

/* Whether a request is a mark. It is always refused. */
static int tells(size_t size) {
    if (!told || size < MARK_TOLD || size > MARK_TOLD + MOST_TOLD) return 0;
    if (size == MARK_TOLD) {
        counting = 0;
        if (pairs < most_pairs) count[++pairs] = counted;
        *count = pairs;
    } else {
        first = size - MARK_TOLD;
        counted = 0;
        counting = 1;
    }
    return 1;
}

/* Counts a request, and says whether it is to be refused. */
static int is_next_refused(void) {
    uint64_t number = atomic_fetch_add(told ? &counted : count, 1) + 1;
    return first != 0 && (number == first || (number > first && later));
}

/* Whether this request for memory is refused. */
static int refused(size_t size) {
    if (count == NULL || refusing != MEMORY) return 0;
    if (!tells(size) && (!counting || !is_next_refused())) return 0;
    errno = ENOMEM;
    return 1;
}

void *malloc(size_t size) { return refused(size) ? NULL : __libc_malloc(size); }

void *calloc(size_t number, size_t size) { return refused(size) ? NULL : __libc_calloc(number, size); }

void *realloc(void *old, size_t size) { return refused(size) ? NULL : __libc_realloc(old, size); }

void *memalign(size_t alignment, size_t size) { return refused(size) ? NULL : __libc_memalign(alignment, size); }

void *aligned_alloc(size_t alignment, size_t size) { return refused(size) ? NULL : __libc_memalign(alignment, size); }

int posix_memalign(void **result, size_t alignment, size_t size) {
    void *made = refused(size) ? NULL : __libc_memalign(alignment, size);
    if (made == NULL) return ENOMEM;
    *result = made;
    return 0;
}

int pthread_create(pthread_t *thread, const pthread_attr_t *attributes, void *(*work)(void *), void *given) {
    if (count != NULL && refusing == THREADS && is_next_refused()) return EAGAIN;
    int (*create)(pthread_t *, const pthread_attr_t *, void *(*)(void *), void *) = dlsym(RTLD_NEXT, "pthread_create");
    return create(thread, attributes, work, given);
}

/* The number of bytes that the next write or read of a device moves: all, a step, a half of them, or none, since it is refused. */
static ssize_t moved(size_t size) {
    uint64_t number = atomic_fetch_add(count, 1) + 1;
    if (halved && number == first) return (size + 1) / 2;
    if (first == 0 || !(number == first + halved || (number > first && later))) return step != 0 && step < size ? step : size;
    if (empty) return 0;
    errno = number % 2 == 0 ? EIO : ENOSPC;
    return -1;
}

ssize_t write(int file, const void *bytes, size_t size) {
    ssize_t taken = size;
    if (count != NULL && refusing == WRITES && file == STDOUT_FILENO) taken = moved(size);
    return taken < 0 ? -1 : syscall(SYS_write, file, bytes, taken);
}

/* To standard output the first part that has bytes is written alone, as a write of several parts may do. */
ssize_t writev(int file, const struct iovec *parts, int number) {
    int part = 0;
    if (count == NULL || refusing != WRITES || file != STDOUT_FILENO) return syscall(SYS_writev, file, parts, number);
    while (part < number && parts[part].iov_len == 0) part++;
    return part == number ? 0 : write(file, parts[part].iov_base, parts[part].iov_len);
}

ssize_t read(int file, void *bytes, size_t size) {
    ssize_t taken = size;
    if (count != NULL && refusing == READS && file == STDIN_FILENO) taken = moved(size);
    return taken < 0 ? -1 : syscall(SYS_read, file, bytes, taken);
}
