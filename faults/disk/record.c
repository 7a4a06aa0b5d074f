/* Records what a process asks of the files below a directory, for LD_PRELOAD.
 *
 * DISK_ROOT names the directory, by its real path, and DISK_TRACE the file that is appended to. Each call is a line of words
 * that are separated by tabs, and what was written follows its line:
 *
 *     create INODE PATH   write INODE OFFSET LENGTH   cut INODE LENGTH   sync INODE   lost INODE
 *     mkdir PATH   syncdir PATH   rename FROM TO   link FROM TO   unlink PATH   mark TEXT
 *
 * `lost` is a sync that failed. DISK_FAIL=KIND:N:COUNT:ERROR:ENDING lets COUNT calls of a kind fail, after N of them: sync, syncdir,
 * write, create, rename, unlink, read, or any of these. Calls whose path has another ENDING don't count; `*` has each. They fail by EIO
 * if ERROR is `io`, and by ENOSPC if it is `space`; if it is `late`, by EIO after they have done their work. A write that fails else has
 * written its first half. DISK_STOP=N ends the process after its Nth call, as signal 9 does. With DISK_LINKS=no a link fails by EXDEV, as
 * between file systems. One call goes at a time, so that the order of the lines is the order of the calls. */
#define _GNU_SOURCE
#include <dlfcn.h>
#include <errno.h>
#include <fcntl.h>
#include <inttypes.h>
#include <limits.h>
#include <pthread.h>
#include <stdarg.h>
#include <stdbool.h>
#include <stdio.h>
#include <stdlib.h>
#include <string.h>
#include <sys/stat.h>
#include <sys/syscall.h>
#include <sys/uio.h>
#include <unistd.h>

static pthread_mutex_t one_at_a_time = PTHREAD_MUTEX_INITIALIZER;
static char root[PATH_MAX];
static int trace = -1;
static char fail_kind[16], fail_error[16], fail_ending[16];
static long fail_left = -1, fail_count, stop_left = -1;

/* Work that is done without a record. */
static int real_open(const char *path, int flags, mode_t mode) {
    return (int)syscall(SYS_openat, AT_FDCWD, path, flags, mode);
}

static void die(const char *what) {
    fprintf(stderr, "record: %s: %s\n", what, strerror(errno));
    _exit(99);
}

__attribute__((constructor)) static void begin(void) {
    const char *name = getenv("DISK_TRACE"), *fail = getenv("DISK_FAIL"), *stop = getenv("DISK_STOP"), *from = getenv("DISK_ROOT");
    if (name == NULL || from == NULL) {
        return;
    }
    snprintf(root, sizeof root, "%s", from);
    trace = real_open(name, O_WRONLY | O_CREAT | O_APPEND | O_CLOEXEC, 0600);
    if (trace < 0) {
        die(name);
    }
    if (fail != NULL && sscanf(fail, "%15[a-z]:%ld:%ld:%15[a-z]:%15s", fail_kind, &fail_left, &fail_count, fail_error, fail_ending) != 5) {
        errno = EINVAL;
        die("DISK_FAIL");
    }
    if (stop != NULL) {
        stop_left = atol(stop);
    }
}

static void put(const void *bytes, size_t length) {
    for (size_t done = 0; done < length;) {
        ssize_t count = syscall(SYS_write, trace, (const char *)bytes + done, length - done);
        if (count <= 0) {
            die("the trace");
        }
        done += (size_t)count;
    }
}

/* Writes a line, and ends the process if that was its last call. */
__attribute__((format(printf, 1, 2))) static void tell(const char *format, ...) {
    char line[3 * PATH_MAX];
    va_list words;
    va_start(words, format);
    int length = vsnprintf(line, sizeof line, format, words);
    va_end(words);
    put(line, (size_t)length);
}

static void count_call(void) {
    if (stop_left >= 0 && stop_left-- == 0) {
        _exit(9);
    }
}

static bool ends(const char *path) {
    size_t length = strlen(path), ending = strlen(fail_ending);
    return strcmp(fail_ending, "*") == 0 || (length >= ending && strcmp(path + length - ending, fail_ending) == 0);
}

/* Whether this call is one that fails. */
static bool fails(const char *kind, const char *path) {
    if (fail_count <= 0 || (strcmp(fail_kind, kind) != 0 && strcmp(fail_kind, "any") != 0) || !ends(path)) {
        return false;
    }
    if (fail_left > 0) {
        fail_left--;
        return false;
    }
    fail_count--;
    return true;
}

/* Whether a call that fails does its work. */
static bool is_late(void) {
    return strcmp(fail_error, "late") == 0;
}

static int failure(void) {
    return strcmp(fail_error, "space") == 0 ? ENOSPC : EIO;
}

static bool is_below(const char *path) {
    size_t length = strlen(root);
    return trace >= 0 && length > 0 && strncmp(path, root, length) == 0 && (path[length] == '/' || path[length] == 0);
}

/* The path of a name, whose directory is there. */
static bool path_of(int directory, const char *name, char *path) {
    char above[PATH_MAX], joined[2 * PATH_MAX];
    if (name[0] == '/') {
        snprintf(joined, sizeof joined, "%s", name);
    } else if (directory == AT_FDCWD) {
        if (getcwd(above, sizeof above) == NULL) {
            return false;
        }
        snprintf(joined, sizeof joined, "%s/%s", above, name);
    } else {
        char link[64];
        snprintf(link, sizeof link, "/proc/self/fd/%d", directory);
        ssize_t length = readlink(link, above, sizeof above - 1);
        if (length < 0) {
            return false;
        }
        above[length] = 0;
        snprintf(joined, sizeof joined, "%s/%s", above, name);
    }
    char *slash = strrchr(joined, '/');
    *slash = 0;
    if (realpath(joined[0] == 0 ? "/" : joined, above) == NULL) {
        return false;
    }
    int length = snprintf(path, PATH_MAX, "%s/%s", strcmp(above, "/") == 0 ? "" : above, slash + 1);
    return length < PATH_MAX && is_below(path);
}

/* The path of a file that is open, if it is below the root. */
static bool path_of_open(int file, char *path) {
    char link[64];
    if (trace < 0 || file == trace) {
        return false;
    }
    snprintf(link, sizeof link, "/proc/self/fd/%d", file);
    ssize_t length = readlink(link, path, PATH_MAX - 1);
    if (length < 0) {
        return false;
    }
    path[length] = 0;
    return is_below(path);
}

static uint64_t inode_of(int file, bool *is_directory) {
    struct stat found;
    if (fstat(file, &found) != 0) {
        die("fstat");
    }
    *is_directory = S_ISDIR(found.st_mode);
    return found.st_ino;
}

static int open_told(int directory, const char *name, int flags, mode_t mode) {
    char path[PATH_MAX];
    if ((flags & (O_CREAT | O_TRUNC)) == 0 || !path_of(directory, name, path)) {
        return (int)syscall(SYS_openat, directory, name, flags, mode);
    }
    pthread_mutex_lock(&one_at_a_time);
    bool was_there = access(path, F_OK) == 0, is_directory, is_failing = !was_there && fails("create", path);
    int file = -1, error = failure();
    if (!is_failing || is_late()) {
        file = (int)syscall(SYS_openat, directory, name, flags, mode);
        error = errno;
    }
    if (file >= 0) {
        uint64_t inode = inode_of(file, &is_directory);
        if (!was_there) {
            tell("create\t%" PRIu64 "\t%s\n", inode, path);
            count_call();
        } else if ((flags & O_TRUNC) != 0) {
            tell("cut\t%" PRIu64 "\t0\n", inode);
            count_call();
        }
        if (is_failing) {
            close(file);
            file = -1;
            error = failure();
        }
    }
    pthread_mutex_unlock(&one_at_a_time);
    errno = error;
    return file;
}

#define OPEN(NAME)                                             \
    int NAME(const char *name, int flags, ...) {               \
        va_list rest;                                          \
        va_start(rest, flags);                                 \
        mode_t mode = (flags & O_CREAT) ? va_arg(rest, mode_t) : 0; \
        va_end(rest);                                          \
        return open_told(AT_FDCWD, name, flags, mode);         \
    }
OPEN(open)
OPEN(open64)

#define OPENAT(NAME)                                           \
    int NAME(int directory, const char *name, int flags, ...) { \
        va_list rest;                                          \
        va_start(rest, flags);                                 \
        mode_t mode = (flags & O_CREAT) ? va_arg(rest, mode_t) : 0; \
        va_end(rest);                                          \
        return open_told(directory, name, flags, mode);        \
    }
OPENAT(openat)
OPENAT(openat64)

ssize_t write(int file, const void *bytes, size_t length) {
    char path[PATH_MAX];
    if (!path_of_open(file, path)) {
        return syscall(SYS_write, file, bytes, length);
    }
    pthread_mutex_lock(&one_at_a_time);
    bool is_directory, is_failing = fails("write", path);
    int flags = fcntl(file, F_GETFL);
    off_t offset = lseek(file, 0, (flags & O_APPEND) ? SEEK_END : SEEK_CUR);
    ssize_t count = syscall(SYS_write, file, bytes, is_failing && !is_late() ? length / 2 : length);
    int error = errno;
    if (count >= 0) {
        tell("write\t%" PRIu64 "\t%jd\t%zd\n", inode_of(file, &is_directory), (intmax_t)offset, count);
        put(bytes, (size_t)count);
        count_call();
    }
    if (is_failing) {
        count = -1;
        error = failure();
    }
    pthread_mutex_unlock(&one_at_a_time);
    errno = error;
    return count;
}

ssize_t writev(int file, const struct iovec *pieces, int count) {
    char path[PATH_MAX];
    if (!path_of_open(file, path)) {
        return syscall(SYS_writev, file, pieces, count);
    }
    /* As many as it likes: the caller goes on. */
    return count == 0 ? 0 : write(file, pieces[0].iov_base, pieces[0].iov_len);
}

/* Whether a read fails. It isn't in the trace. */
static bool read_fails(int file) {
    char path[PATH_MAX];
    if (!path_of_open(file, path)) {
        return false;
    }
    pthread_mutex_lock(&one_at_a_time);
    bool is_failing = fails("read", path);
    pthread_mutex_unlock(&one_at_a_time);
    errno = EIO;
    return is_failing;
}

ssize_t read(int file, void *bytes, size_t length) {
    return read_fails(file) ? -1 : syscall(SYS_read, file, bytes, length);
}

#define PREAD(NAME)                                                                                \
    ssize_t NAME(int file, void *bytes, size_t length, off_t offset) {                             \
        return read_fails(file) ? -1 : (ssize_t)syscall(SYS_pread64, file, bytes, length, offset); \
    }
PREAD(pread)
PREAD(pread64)

#define FTRUNCATE(NAME)                                                              \
    int NAME(int file, off_t length) {                                               \
        char path[PATH_MAX];                                                         \
        if (!path_of_open(file, path)) {                                             \
            return (int)syscall(SYS_ftruncate, file, length);                        \
        }                                                                            \
        pthread_mutex_lock(&one_at_a_time);                                          \
        bool is_directory;                                                           \
        int told = (int)syscall(SYS_ftruncate, file, length), error = errno;         \
        if (told == 0) {                                                             \
            tell("cut\t%" PRIu64 "\t%jd\n", inode_of(file, &is_directory), (intmax_t)length); \
            count_call();                                                            \
        }                                                                            \
        pthread_mutex_unlock(&one_at_a_time);                                        \
        errno = error;                                                               \
        return told;                                                                 \
    }
FTRUNCATE(ftruncate)
FTRUNCATE(ftruncate64)

/* A sync isn't done: memory is as good as a device here, and the trace says what a device would have. */
static int sync_told(int file, long call) {
    char path[PATH_MAX];
    if (!path_of_open(file, path)) {
        return (int)syscall(call, file);
    }
    pthread_mutex_lock(&one_at_a_time);
    bool is_directory;
    uint64_t inode = inode_of(file, &is_directory);
    bool is_failing = fails(is_directory ? "syncdir" : "sync", path);
    if (is_directory && (!is_failing || is_late())) {
        tell("syncdir\t%s\n", path);
    } else if (!is_directory) {
        tell("%s\t%" PRIu64 "\n", is_failing && !is_late() ? "lost" : "sync", inode);
    }
    count_call();
    pthread_mutex_unlock(&one_at_a_time);
    errno = failure();
    return is_failing ? -1 : 0;
}

int fsync(int file) {
    return sync_told(file, SYS_fsync);
}

int fdatasync(int file) {
    return sync_told(file, SYS_fdatasync);
}

static int rename_told(int from_directory, const char *from, int to_directory, const char *to, unsigned flags) {
    char before[PATH_MAX], behind[PATH_MAX];
    if (!path_of(from_directory, from, before) || !path_of(to_directory, to, behind)) {
        return (int)syscall(SYS_renameat2, from_directory, from, to_directory, to, flags);
    }
    pthread_mutex_lock(&one_at_a_time);
    bool is_failing = fails("rename", behind);
    int told = -1, error = failure();
    if (!is_failing || is_late()) {
        told = (int)syscall(SYS_renameat2, from_directory, from, to_directory, to, flags);
        error = errno;
    }
    if (told == 0) {
        tell("rename\t%s\t%s\n", before, behind);
        count_call();
    }
    if (is_failing) {
        told = -1;
        error = failure();
    }
    pthread_mutex_unlock(&one_at_a_time);
    errno = error;
    return told;
}

int rename(const char *from, const char *to) {
    return rename_told(AT_FDCWD, from, AT_FDCWD, to, 0);
}

int renameat(int from_directory, const char *from, int to_directory, const char *to) {
    return rename_told(from_directory, from, to_directory, to, 0);
}

static int link_told(int from_directory, const char *from, int to_directory, const char *to, int flags) {
    char before[PATH_MAX], behind[PATH_MAX];
    const char *links = getenv("DISK_LINKS");
    if (!path_of(from_directory, from, before) || !path_of(to_directory, to, behind)) {
        return (int)syscall(SYS_linkat, from_directory, from, to_directory, to, flags);
    }
    if (links != NULL && strcmp(links, "no") == 0) {
        errno = EXDEV;
        return -1;
    }
    pthread_mutex_lock(&one_at_a_time);
    int told = (int)syscall(SYS_linkat, from_directory, from, to_directory, to, flags), error = errno;
    if (told == 0) {
        tell("link\t%s\t%s\n", before, behind);
        count_call();
    }
    pthread_mutex_unlock(&one_at_a_time);
    errno = error;
    return told;
}

int link(const char *from, const char *to) {
    return link_told(AT_FDCWD, from, AT_FDCWD, to, 0);
}

int linkat(int from_directory, const char *from, int to_directory, const char *to, int flags) {
    return link_told(from_directory, from, to_directory, to, flags);
}

static int unlink_told(int directory, const char *name, int flags) {
    char path[PATH_MAX];
    if (!path_of(directory, name, path)) {
        return (int)syscall(SYS_unlinkat, directory, name, flags);
    }
    pthread_mutex_lock(&one_at_a_time);
    bool is_failing = fails("unlink", path);
    int told = -1, error = failure();
    if (!is_failing || is_late()) {
        told = (int)syscall(SYS_unlinkat, directory, name, flags);
        error = errno;
    }
    if (told == 0) {
        tell("unlink\t%s\n", path);
        count_call();
    }
    if (is_failing) {
        told = -1;
        error = failure();
    }
    pthread_mutex_unlock(&one_at_a_time);
    errno = error;
    return told;
}

int unlink(const char *name) {
    return unlink_told(AT_FDCWD, name, 0);
}

int unlinkat(int directory, const char *name, int flags) {
    return unlink_told(directory, name, flags);
}

int mkdir(const char *name, mode_t mode) {
    char path[PATH_MAX];
    if (!path_of(AT_FDCWD, name, path)) {
        return (int)syscall(SYS_mkdirat, AT_FDCWD, name, mode);
    }
    pthread_mutex_lock(&one_at_a_time);
    int told = (int)syscall(SYS_mkdirat, AT_FDCWD, name, mode), error = errno;
    if (told == 0) {
        tell("mkdir\t%s\n", path);
        count_call();
    }
    pthread_mutex_unlock(&one_at_a_time);
    errno = error;
    return told;
}

/* The program's messages between its calls. */
void disk_mark(const char *text) {
    if (trace >= 0) {
        pthread_mutex_lock(&one_at_a_time);
        tell("mark\t%s\n", text);
        pthread_mutex_unlock(&one_at_a_time);
    }
}
