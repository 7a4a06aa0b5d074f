/* A file that records what is written to it, so that a loop device over it has the trace of a file system.
 *
 *     block IMAGE DIRECTORY TRACE
 *
 * Mounts a file system of its own (FUSE) at DIRECTORY, with the files `disk`, which is IMAGE, and `mark`. TRACE is appended to:
 * `write OFFSET LENGTH` with the bytes after it for each write of the disk, `flush` for each sync of it, and `mark TEXT` for
 * each write of the mark. It goes to the background once it is mounted, and ends with `umount DIRECTORY`. */
#define _GNU_SOURCE
#include <errno.h>
#include <fcntl.h>
#include <linux/fuse.h>
#include <stdio.h>
#include <stdlib.h>
#include <string.h>
#include <sys/mount.h>
#include <sys/stat.h>
#include <unistd.h>

enum { ROOT = FUSE_ROOT_ID, DISK = 2, MARK = 3, MOST = 1 << 20 };

static int device, image, trace;
static off_t disk_size;

static void die(const char *what) {
    fprintf(stderr, "block: %s: %s\n", what, strerror(errno));
    exit(1);
}

static void put(const void *bytes, size_t length) {
    for (size_t done = 0; done < length;) {
        ssize_t count = write(trace, (const char *)bytes + done, length - done);
        if (count <= 0) {
            die("the trace");
        }
        done += (size_t)count;
    }
}

static void answer(uint64_t unique, int error, const void *bytes, size_t length) {
    static char room[sizeof(struct fuse_out_header) + MOST];
    struct fuse_out_header header = {.len = (uint32_t)(sizeof header + length), .error = -error, .unique = unique};
    memcpy(room, &header, sizeof header);
    if (length > 0) {
        memcpy(room + sizeof header, bytes, length);
    }
    /* A request that was interrupted isn't there any more. */
    if (write(device, room, header.len) < 0 && errno != ENOENT) {
        die("an answer");
    }
}

static struct fuse_attr attributes_of(uint64_t node) {
    struct fuse_attr found = {.ino = node, .nlink = 1, .blksize = 4096};
    found.mode = node == ROOT ? S_IFDIR | 0700 : S_IFREG | 0600;
    found.size = node == DISK ? (uint64_t)disk_size : 0;
    found.blocks = found.size / 512;
    return found;
}

static void begin(uint64_t unique, const struct fuse_init_in *asked) {
    struct fuse_init_out told = {.major = FUSE_KERNEL_VERSION, .minor = FUSE_KERNEL_MINOR_VERSION};
    told.minor = asked->minor < told.minor ? asked->minor : told.minor;
    told.flags = asked->flags & FUSE_BIG_WRITES;
    told.max_write = 128 << 10;
    answer(unique, 0, &told, sizeof told);
}

static void look_up(uint64_t unique, const char *name) {
    uint64_t node = strcmp(name, "disk") == 0 ? DISK : strcmp(name, "mark") == 0 ? MARK : 0;
    if (node == 0) {
        answer(unique, ENOENT, NULL, 0);
        return;
    }
    struct fuse_entry_out told = {.nodeid = node, .entry_valid = 1, .attr_valid = 1, .attr = attributes_of(node)};
    answer(unique, 0, &told, sizeof told);
}

static void tell_attributes(uint64_t unique, uint64_t node) {
    struct fuse_attr_out told = {.attr_valid = 1, .attr = attributes_of(node)};
    answer(unique, 0, &told, sizeof told);
}

static void read_disk(uint64_t unique, const struct fuse_read_in *asked) {
    static char room[MOST];
    size_t most = asked->size < MOST ? asked->size : MOST;
    ssize_t count = pread(image, room, most, (off_t)asked->offset);
    answer(unique, count < 0 ? errno : 0, room, count < 0 ? 0 : (size_t)count);
}

static void write_told(uint64_t unique, uint64_t node, const struct fuse_write_in *asked, const char *bytes) {
    struct fuse_write_out told = {.size = asked->size};
    char line[64];
    if (node == MARK) {
        put("mark\t", 5);
        put(bytes, asked->size);
    } else {
        int length = snprintf(line, sizeof line, "write\t%llu\t%u\n", (unsigned long long)asked->offset, asked->size);
        put(line, (size_t)length);
        put(bytes, asked->size);
        if (pwrite(image, bytes, asked->size, (off_t)asked->offset) != (ssize_t)asked->size) {
            die("the image");
        }
    }
    answer(unique, 0, &told, sizeof told);
}

/* Does what a request asks for. */
static void serve(const char *request) {
    const struct fuse_in_header *header = (const struct fuse_in_header *)request;
    const void *body = request + sizeof *header;
    struct fuse_open_out opened = {.open_flags = FOPEN_DIRECT_IO};
    struct fuse_statfs_out room = {.st = {.bsize = 4096, .namelen = 255}};
    switch (header->opcode) {
    case FUSE_INIT:
        begin(header->unique, body);
        break;
    case FUSE_LOOKUP:
        look_up(header->unique, body);
        break;
    case FUSE_GETATTR:
    case FUSE_SETATTR:
        tell_attributes(header->unique, header->nodeid);
        break;
    case FUSE_OPEN:
    case FUSE_OPENDIR:
        answer(header->unique, 0, &opened, sizeof opened);
        break;
    case FUSE_READ:
        read_disk(header->unique, body);
        break;
    case FUSE_WRITE:
        write_told(header->unique, header->nodeid, body, (const char *)body + sizeof(struct fuse_write_in));
        break;
    case FUSE_FSYNC:
        put("flush\n", 6);
        answer(header->unique, 0, NULL, 0);
        break;
    case FUSE_STATFS:
        answer(header->unique, 0, &room, sizeof room);
        break;
    case FUSE_FLUSH:
    case FUSE_RELEASE:
    case FUSE_RELEASEDIR:
    case FUSE_READDIR:
    case FUSE_ACCESS:
        answer(header->unique, 0, NULL, 0);
        break;
    case FUSE_FORGET:
    case FUSE_BATCH_FORGET:
    case FUSE_INTERRUPT:
        break;
    default:
        answer(header->unique, ENOSYS, NULL, 0);
    }
}

int main(int count, char **words) {
    static char request[sizeof(struct fuse_in_header) + sizeof(struct fuse_write_in) + MOST];
    struct stat found;
    char options[128];
    if (count != 4) {
        fprintf(stderr, "usage: block IMAGE DIRECTORY TRACE\n");
        return 2;
    }
    image = open(words[1], O_RDWR | O_CLOEXEC);
    trace = open(words[3], O_WRONLY | O_CREAT | O_APPEND | O_CLOEXEC, 0600);
    device = open("/dev/fuse", O_RDWR | O_CLOEXEC);
    if (image < 0 || trace < 0 || device < 0 || fstat(image, &found) != 0) {
        die("opening");
    }
    disk_size = found.st_size;
    snprintf(options, sizeof options, "fd=%d,rootmode=40000,user_id=%u,group_id=%u", device, getuid(), getgid());
    if (mount("block", words[2], "fuse.block", MS_NOSUID | MS_NODEV, options) != 0) {
        die("mount");
    }
    if (daemon(1, 0) != 0) {
        die("the background");
    }
    for (;;) {
        ssize_t length = read(device, request, sizeof request);
        if (length > 0) {
            serve(request);
        } else if (errno == ENODEV) {
            return 0;
        } else if (errno != EINTR && errno != ENOENT && errno != EAGAIN) {
            die("a request");
        }
    }
}
