/* A program that answers wrong in the way that its second word names, where its second request of a kind is refused. With it
 * the driver is tried itself: it has to find each wrong answer. For tests alone.
 *
 *     planted program WAY   it asks for memory three times
 *     planted writes WAY    it writes three lines
 *     planted reads WAY     it reads its input, a block at a time, and says how many bytes there were
 */
#include <stdio.h>
#include <stdlib.h>
#include <string.h>
#include <unistd.h>

/* Writes all bytes of a string, and says whether that went well. */
static int tell(const char *text) {
    size_t left = strlen(text);
    while (left > 0) {
        ssize_t taken = write(STDOUT_FILENO, text, left);
        if (taken < 0) return 0;
        text += taken;
        left -= taken;
    }
    return 1;
}

static void say(const char *text) {
    if (!tell(text)) abort();
}

/* Says that memory ran out after some output, as it should be said. */
static int ends(const char *first) {
    say(first);
    say("out of memory\n");
    return 4;
}

static int answers_wrong(const char *way) {
    if (strcmp(way, "another-text") == 0) return say("first\nthird\n"), 0;
    if (strcmp(way, "half-a-line") == 0) return ends("fir");
    if (strcmp(way, "another-status") == 0) return ends("first\n") - 4;
    if (strcmp(way, "nothing-said") == 0) return 4;
    if (strcmp(way, "a-signal") == 0) abort();
    if (strcmp(way, "no-end") == 0) pause();
    return ends("first\n");
}

static int asks(const char *way) {
    if (malloc(11) == NULL) return ends("");
    if (malloc(12) == NULL) return answers_wrong(way);
    if (malloc(13) == NULL) return ends("first\n");
    say("first\nsecond\n");
    return 0;
}

/* Goes on after a hole, or after the second line, which is written again, or says that it stops. */
static int writes_on(const char *way) {
    if (strcmp(way, "behind-a-hole") == 0) return tell("third\n"), 5;
    if (strcmp(way, "written-again") == 0) return tell("second\n"), 5;
    if (strcmp(way, "all-written-again") == 0) return tell("second\n") && tell("third\n") ? 0 : 5;
    if (strcmp(way, "fault-said") == 0) return tell("write fault\n"), 5;
    if (strcmp(way, "as-if-written") == 0) return 0;
    return 5;
}

static int writes(const char *way) {
    if (!tell("first\n")) return 5;
    if (!tell("second\n")) return writes_on(way);
    return tell("third\n") ? 0 : 5;
}

static int reads(const char *way) {
    char bytes[256], text[32];
    long all = 0;
    for (int number = 1;; number++) {
        ssize_t taken = read(STDIN_FILENO, bytes, sizeof bytes);
        if (taken < 0 && number == 2 && strcmp(way, "read-again") == 0) continue;
        if (taken < 0 && number == 2 && strcmp(way, "as-if-at-the-end") == 0) taken = 0;
        if (taken < 0 && number == 2 && strcmp(way, "looked-again") == 0) read(STDIN_FILENO, bytes, sizeof bytes);
        if (taken < 0) return say("read fault\n"), 5;
        if (taken == 0) break;
        all += taken;
    }
    snprintf(text, sizeof text, "%ld bytes\n", all);
    return say(text), 0;
}

int main(int count, char **words) {
    if (count < 3) return 2;
    if (strcmp(words[1], "program") == 0) return asks(words[2]);
    if (strcmp(words[1], "writes") == 0) return writes(words[2]);
    if (strcmp(words[1], "reads") == 0) return reads(words[2]);
    return 2;
}
