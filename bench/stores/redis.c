/* Redis over a Unix socket, whose path STORE_SOCKET has: its protocol in plain text, one call and its reply after the other. A thread has
 * a connection of its own. Keys have no order, so there are no scans. A number is kept as its digits. */
#define _POSIX_C_SOURCE 200809L

#include "store.h"

#include <inttypes.h>
#include <string.h>
#include <sys/socket.h>
#include <sys/un.h>
#include <unistd.h>

const bool has_memory = true, has_merges = true, has_scans = false;

enum { ROOM = 1 << 16, HEAD = 256 };

struct session {
    int server;
    /* Bytes that aren't sent yet, and bytes received: those from `begin` on aren't read yet. */
    size_t used, begin, end;
    uint8_t sent[ROOM], received[ROOM], value[ROOM];
};

void open_store(const struct settings *settings) {
    expect(settings->folder == NULL && !settings->is_synced, "Redis is measured in memory alone");
    expect(getenv("STORE_SOCKET") != NULL, "STORE_SOCKET isn't set");
}

struct session *open_session(void) {
    struct session *session = (struct session *)allocate(1, sizeof *session);
    struct sockaddr_un address = {.sun_family = AF_UNIX};
    const char *path = getenv("STORE_SOCKET");
    expect(strlen(path) < sizeof address.sun_path, "the socket's path is too long");
    strcpy(address.sun_path, path);
    session->server = socket(AF_UNIX, SOCK_STREAM, 0);
    expect(session->server >= 0, "there is no socket");
    expect(connect(session->server, (const struct sockaddr *)&address, sizeof address) == 0, "Redis doesn't listen");
    return session;
}

/* Sends what waits to be sent. */
static void flush(struct session *session) {
    for (size_t place = 0; place < session->used;) {
        ssize_t done = write(session->server, session->sent + place, session->used - place);
        expect(done > 0, "Redis takes no call");
        place += (size_t)done;
    }
    session->used = 0;
}

static void push(struct session *session, const void *bytes, size_t length) {
    const uint8_t *rest = (const uint8_t *)bytes;
    while (length > 0) {
        size_t part = length < ROOM - session->used ? length : ROOM - session->used;
        memcpy(session->sent + session->used, rest, part);
        session->used += part;
        rest += part;
        length -= part;
        if (length > 0) {
            flush(session);
        }
    }
}

/* A call begins with the number of its words, and a word with that of its bytes. */
static void push_number(struct session *session, char kind, size_t number) {
    char head[HEAD];
    push(session, head, (size_t)snprintf(head, sizeof head, "%c%zu\r\n", kind, number));
}

static void push_word(struct session *session, struct text word) {
    push_number(session, '$', word.length);
    push(session, word.bytes, word.length);
    push(session, "\r\n", 2);
}

/* Begins a call with its name. */
static void begin_call(struct session *session, size_t words, const char *name) {
    push_number(session, '*', words);
    push_word(session, (struct text){(const uint8_t *)name, strlen(name)});
}

/* Waits for more of a reply if all that came is read. */
static void receive(struct session *session) {
    if (session->begin == session->end) {
        ssize_t got = read(session->server, session->received, ROOM);
        expect(got > 0, "Redis gives no reply");
        session->begin = 0;
        session->end = (size_t)got;
    }
}

static void read_bytes(struct session *session, uint8_t *room, size_t length) {
    while (length > 0) {
        size_t part;
        receive(session);
        part = session->end - session->begin < length ? session->end - session->begin : length;
        memcpy(room, session->received + session->begin, part);
        session->begin += part;
        room += part;
        length -= part;
    }
}

/* The line that a reply begins with, without its kind, which is checked. */
static void read_head(struct session *session, char kind, char *head) {
    size_t length = 0;
    do {
        expect(length + 1 < HEAD, "a reply's head is too long");
        read_bytes(session, (uint8_t *)head + length++, 1);
    } while (head[length - 1] != '\n');
    head[length - 1] = 0;
    expect(head[0] == kind, head);
    memmove(head, head + 1, length - 1);
}

static int64_t read_number(struct session *session, char kind) {
    char head[HEAD];
    read_head(session, kind, head);
    return (int64_t)strtoll(head, NULL, 10);
}

/* Reads a value, if there is one. */
static bool read_value(struct session *session, struct text *value) {
    uint8_t line_end[2];
    int64_t length = read_number(session, '$');
    if (length < 0) {
        return false;
    }
    expect(length <= ROOM, "a value has no room");
    *value = (struct text){session->value, (size_t)length};
    read_bytes(session, session->value, value->length);
    read_bytes(session, line_end, sizeof line_end);
    return true;
}

void put(struct session *session, struct text key, struct text value) {
    char head[HEAD];
    begin_call(session, 3, "SET");
    push_word(session, key);
    push_word(session, value);
    flush(session);
    read_head(session, '+', head);
}

void add(struct session *session, struct text key, uint64_t number) {
    char digits[HEAD];
    int length = snprintf(digits, sizeof digits, "%" PRIu64, number);
    begin_call(session, 3, "INCRBY");
    push_word(session, key);
    push_word(session, (struct text){(const uint8_t *)digits, (size_t)length});
    flush(session);
    read_number(session, ':');
}

void delete_key(struct session *session, struct text key) {
    begin_call(session, 2, "DEL");
    push_word(session, key);
    flush(session);
    read_number(session, ':');
}

bool get(struct session *session, struct text key, struct text *value) {
    begin_call(session, 2, "GET");
    push_word(session, key);
    flush(session);
    return read_value(session, value);
}

size_t get_many(struct session *session, const struct text *keys, size_t count) {
    struct text value;
    size_t found = 0;
    begin_call(session, 1 + count, "MGET");
    for (size_t place = 0; place < count; place++) {
        push_word(session, keys[place]);
    }
    flush(session);
    expect(read_number(session, '*') == (int64_t)count, "Redis gives another number of values");
    for (size_t place = 0; place < count; place++) {
        found += read_value(session, &value);
    }
    return found;
}

uint64_t scan(struct session *session, struct text low, uint64_t limit) {
    (void)session, (void)low, (void)limit;
    expect(false, "Redis has no order of keys");
    return 0;
}

uint64_t scan_back(struct session *session, struct text high, uint64_t limit) {
    return scan(session, high, limit);
}

void close_session(struct session *session) {
    close(session->server);
    free(session);
}

void settle(void) {
}

void checkpoint(void) {
}

void close_store(void) {
}
