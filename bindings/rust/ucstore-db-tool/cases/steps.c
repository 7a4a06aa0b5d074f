/* Counts the calls by which a process changes files, for the program `crashes`: loaded into it before its own libraries.
 *
 * Each call appends a line to the file TRACE, before it is done: its name, and the paths that it is about. Before the call of the number
 * KILL_AT, from 1, the process is killed. */
#define _GNU_SOURCE
#include <dlfcn.h>
#include <fcntl.h>
#include <signal.h>
#include <stdarg.h>
#include <stdio.h>
#include <stdlib.h>
#include <string.h>
#include <sys/stat.h>
#include <unistd.h>

static int number;

#define REAL(name) ((__typeof__(&name))dlsym(RTLD_NEXT, #name))

/* Notes a call, and may be the last thing that the process does. */
static void step(const char *call, const char *one, const char *other) {
    const char *trace = getenv("TRACE"), *at = getenv("KILL_AT");
    int now = __atomic_add_fetch(&number, 1, __ATOMIC_SEQ_CST);
    if (trace) {
        int file = REAL(open64)(trace, O_WRONLY | O_CREAT | O_APPEND, 0666);
        dprintf(file, "%s\t%s\t%s\n", call, one, other);
        close(file);
    }
    if (at && now == atoi(at)) kill(getpid(), SIGKILL);
}

/* Whether a path is one of a terminal, or of another device that keeps nothing. */
static int is_terminal(const char *path) {
    return !strncmp(path, "/dev/", 5) && strncmp(path, "/dev/shm/", 9);
}

/* The same for an open file; standard streams don't count. */
static void step_at(const char *call, int file) {
    char link[64], path[4096] = "";
    snprintf(link, sizeof link, "/proc/self/fd/%d", file);
    if (file > 2 && readlink(link, path, sizeof path - 1) > 0 && path[0] == '/' && !is_terminal(path)) step(call, path, "");
}

int open64(const char *path, int flags, ...) {
    mode_t mode = 0;
    if (flags & O_CREAT) {
        va_list rest;
        va_start(rest, flags);
        mode = va_arg(rest, mode_t);
        va_end(rest);
        step("create", path, "");
    }
    return REAL(open64)(path, flags, mode);
}

ssize_t write(int file, const void *bytes, size_t size) {
    step_at("write", file);
    return REAL(write)(file, bytes, size);
}

int fsync(int file) {
    step_at("sync", file);
    return REAL(fsync)(file);
}

int fdatasync(int file) {
    step_at("sync", file);
    return REAL(fdatasync)(file);
}

int ftruncate64(int file, off64_t size) {
    step_at("write", file);
    return REAL(ftruncate64)(file, size);
}

int rename(const char *from, const char *to) {
    step("rename", from, to);
    return REAL(rename)(from, to);
}

int link(const char *from, const char *to) {
    step("link", from, to);
    return REAL(link)(from, to);
}

int linkat(int one, const char *from, int other, const char *to, int flags) {
    step("link", from, to);
    return REAL(linkat)(one, from, other, to, flags);
}

int mkdir(const char *path, mode_t mode) {
    step("mkdir", path, "");
    return REAL(mkdir)(path, mode);
}

int unlink(const char *path) {
    step("unlink", path, "");
    return REAL(unlink)(path);
}
