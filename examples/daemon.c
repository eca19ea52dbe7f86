/*
 * A provisioning check: before a policy goes out to a host, ask whether an account on it can ever come to write a file.
 *
 *   daemon POLICY UID GID START TARGET
 *
 * POLICY is a file with the policy's lines, without question lines. If it is reached, the steps of the answer are replayed. Exit status, as of
 * bin/pathcheck: 0 never, 1 reached, 2 refused, 3 no check: it could not be asked, its answer could not be written, or its steps do not hold.
 *
 *   bin/install /opt/leveecrumb && export PKG_CONFIG_PATH=/opt/leveecrumb/lib/pkgconfig
 *   gcc -std=c99 examples/daemon.c $(pkg-config --cflags --libs leveecrumb) -o daemon
 */
#include <stdio.h>
#include <stdlib.h>
#include <string.h>

#include "leveecrumb.h"

enum { NEVER = 0, REACHED = 1, REFUSED = 2, NO_CHECK = 3 };

struct question {
    uint32_t uid, gid;
    const char *start, *target;
};

/* The lent areas. One byte more of text than is accepted, so that the library sees a text that is too long. */
static uint8_t text[LEVEECRUMB_TEXT_MOST + 1];
static uint8_t store[LEVEECRUMB_STORE_LEAST];
static uint8_t work[LEVEECRUMB_WORK_LEAST];
static uint8_t room[LEVEECRUMB_ROOM_MOST];
static struct leveecrumb_step steps[LEVEECRUMB_STEPS_MOST];

static const uint8_t *bytes(const char *word)
{
    return (const uint8_t *)word;
}

/* ---- hexadecimal lines ---- */

static unsigned digit(uint8_t c)
{
    return c <= '9' ? c - '0' : c - 'a' + 10;
}

/* So many bytes of a line, from its digits on, as a number. */
static uint32_t number(const uint8_t *digits, unsigned bytes)
{
    uint32_t n = 0;
    unsigned i;
    for (i = 0; i < 2 * bytes; i++)
        n = n * 16 + digit(digits[i]);
    return n;
}

/* The line behind this one. */
static const uint8_t *next(const uint8_t *line)
{
    while (*line != '\n')
        line++;
    return line + 1;
}

/* The record of a step line: what the line does not say is 0. */
static struct leveecrumb_step step(const uint8_t *line)
{
    struct leveecrumb_step s = {0, 0, 0, 0, 0, 0};
    const uint8_t *rest = line + 2;
    s.kind = (uint8_t)number(line, 1);
    switch (s.kind) {
    case LEVEECRUMB_LINE_SPECIAL:
        s.role = (uint8_t)number(rest, 1);
        break;
    case LEVEECRUMB_LINE_USER:
        s.uid = number(rest, 4);
        break;
    case LEVEECRUMB_LINE_GROUP:
        s.gid = number(rest, 4);
        break;
    case LEVEECRUMB_LINE_EXEC:
        s.object = (uint8_t)number(rest, 1);
        s.file = (uint8_t)number(rest + 2, 1);
        s.uid = number(rest + 4, 4);
        s.gid = number(rest + 12, 4);
        break;
    }
    return s;
}

/* ---- words ---- */

static void say_byte(uint8_t c)
{
    if (c >= ' ' && c <= '~')
        putchar(c);
    else
        printf("\\x%02x", c);
}

/* The path with this number in the loaded policy; the start for LEVEECRUMB_FILE_START. */
static void say_path(const char *start, uint8_t which)
{
    struct leveecrumb_part part = leveecrumb_last_file(bytes(start), strlen(start), store, sizeof store, which);
    const uint8_t *area = part.stored == LEVEECRUMB_PART_OF_START ? bytes(start) : store;
    size_t i;
    for (i = 0; i < part.size; i++)
        say_byte(area[part.from + i]);
}

static void say_step(const char *start, const struct leveecrumb_step *s)
{
    switch (s->kind) {
    case LEVEECRUMB_LINE_SPECIAL:
        if (s->role == LEVEECRUMB_NONE)
            printf("give up the special role");
        else
            printf("take special role %u", s->role);
        break;
    case LEVEECRUMB_LINE_USER:
        printf("set the UID to %lu", (unsigned long)s->uid);
        break;
    case LEVEECRUMB_LINE_GROUP:
        printf("set the GID to %lu", (unsigned long)s->gid);
        break;
    case LEVEECRUMB_LINE_EXEC:
        printf("run ");
        say_path(start, s->file);
        printf(" (object ");
        say_path(start, s->object);
        printf("), then UID %lu, GID %lu", (unsigned long)s->uid, (unsigned long)s->gid);
        break;
    }
}

/* A sentence for each refusal. */
static const char *reason(uint32_t refusal)
{
    switch (refusal) {
    case LEVEECRUMB_TEXT_TOO_LONG:
        return "The policy has more than 32,768 bytes.";
    case LEVEECRUMB_STORE_TOO_SHORT:
        return "The store has fewer than 16,384 bytes.";
    case LEVEECRUMB_WORK_TOO_SHORT:
        return "The work area has fewer than 49,152 bytes.";
    case LEVEECRUMB_NO_PATH:
        return "The start or the target is no path, or has more than 64 bytes.";
    case LEVEECRUMB_NOBODY:
        return "The UID or the GID is 4294967295, which names nobody.";
    case LEVEECRUMB_NO_KIND:
        return "The kind of access is neither read nor write.";
    case LEVEECRUMB_BAD_LINE:
        return "The line is empty, has an odd number of digits, more than 160, or another byte than a lowercase digit, or does not end.";
    case LEVEECRUMB_BAD_FRAME:
        return "The frame's type is unknown, or its length is wrong for its type.";
    case LEVEECRUMB_OUT_OF_ORDER:
        return "The frame stands out of order, or after the end frame.";
    case LEVEECRUMB_OUT_OF_RANGE:
        return "A field is out of range, names nothing or the wrong role, is a bad path, or lists an id where all are allowed.";
    case LEVEECRUMB_REPEATED:
        return "The frame repeats a role, path, transition, entry, object or id.";
    case LEVEECRUMB_TABLE_FULL:
        return "The frame is one more than a policy may have.";
    case LEVEECRUMB_WRONG_COUNT:
        return "The end frame's count is not the number of frames before it.";
    case LEVEECRUMB_NO_END:
        return "The policy has no end frame.";
    case LEVEECRUMB_INCOMPLETE:
        return "The policy lacks a default role, an entry for / in a role, or an object / in an entry.";
    case LEVEECRUMB_TOO_MANY_STATES:
        return "The policy has more than 8,192 states.";
    case LEVEECRUMB_ROOM_TOO_SHORT:
        return "The answer does not fit the room.";
    default:
        return "The library gave a number that this program does not know.";
    }
}

/* ---- the check ---- */

static int refused(uint64_t result)
{
    uint32_t refusal = LEVEECRUMB_NUMBER(result);
    uint32_t value = LEVEECRUMB_VALUE(result);
    printf("Refused with %lu", (unsigned long)refusal);
    if (refusal == LEVEECRUMB_ROOM_TOO_SHORT)
        printf(", %lu bytes needed", (unsigned long)value);
    else if (value != 0)
        printf(" at line %lu", (unsigned long)value);
    printf(". %s\n", reason(refusal));
    return REFUSED;
}

/* The shown steps once more, against the rules alone: nobody is to be told of a way that is none. */
static int replayed(const struct question *q, size_t size, size_t count)
{
    struct leveecrumb_replayed r = leveecrumb_replay(text, size, store, sizeof store, q->uid, q->gid, bytes(q->start), strlen(q->start),
                                                     bytes(q->target), strlen(q->target), LEVEECRUMB_WRITE, steps, count);
    if (r.verdict == LEVEECRUMB_REPLAY_HOLDS) {
        printf("Replayed: the steps hold, and ");
        say_path(q->start, r.file);
        printf("%s runs at the end.\n", r.file == LEVEECRUMB_FILE_START ? " still" : "");
        return REACHED;
    }
    fflush(stdout);
    if (r.verdict == LEVEECRUMB_REPLAY_NO_STEP)
        fprintf(stderr, "daemon: the answer is wrong: step %lu is no real step\n", (unsigned long)r.first + 1);
    else if (r.verdict == LEVEECRUMB_REPLAY_DENIED)
        fprintf(stderr, "daemon: the answer is wrong: its steps do not bring the account to write %s\n", q->target);
    else
        fprintf(stderr, "daemon: the replay is refused with %u. %s\n", r.number, reason(r.number));
    return NO_CHECK;
}

static int answered(const struct question *q, size_t size)
{
    const uint8_t *line = room;
    unsigned long opened = number(line + 4, 2);
    unsigned long count = number(line + 8, 2);
    unsigned long i;
    if (number(line + 2, 1) == LEVEECRUMB_NEVER) {
        printf("The policy is accepted. No run of steps, on any file system, brings the account to write %s (states reached: %lu).\n", q->target, opened);
        return NEVER;
    }
    printf("The policy is accepted. The account can come to write %s (steps: %lu, states opened: %lu).\n", q->target, count, opened);
    for (i = 0; i < count; i++) {
        line = next(line);
        steps[i] = step(line);
        printf("%lu. ", i + 1);
        say_step(q->start, &steps[i]);
        printf("\n");
    }
    return replayed(q, size, count);
}

/* The whole number that a word is, at most 4294967295; 0 and an error otherwise. */
static uint32_t id(const char *word, int *bad)
{
    uint64_t n = 0;
    const char *c;
    for (c = word; *c >= '0' && *c <= '9' && n <= LEVEECRUMB_ID_NONE; c++)
        n = n * 10 + (uint64_t)(*c - '0');
    if (c == word || *c != 0 || n > LEVEECRUMB_ID_NONE) {
        *bad = 1;
        return 0;
    }
    return (uint32_t)n;
}

static int usage(void)
{
    fprintf(stderr, "usage: daemon POLICY UID GID START TARGET\n");
    return NO_CHECK;
}

int main(int count, char **words)
{
    FILE *file;
    size_t size;
    struct question q;
    uint64_t result;
    int bad = 0, status;
    if (count != 6)
        return usage();
    q.uid = id(words[2], &bad);
    q.gid = id(words[3], &bad);
    q.start = words[4];
    q.target = words[5];
    if (bad)
        return usage();
    file = fopen(words[1], "rb");
    if (file == NULL) {
        fprintf(stderr, "daemon: cannot open %s\n", words[1]);
        return NO_CHECK;
    }
    size = fread(text, 1, sizeof text, file);
    bad = ferror(file);
    fclose(file);
    if (bad) {
        fprintf(stderr, "daemon: cannot read %s\n", words[1]);
        return NO_CHECK;
    }
    result = leveecrumb_ask(text, size, store, sizeof store, work, sizeof work, room, sizeof room, q.uid, q.gid,
                            bytes(q.start), strlen(q.start), bytes(q.target), strlen(q.target), LEVEECRUMB_WRITE);
    status = LEVEECRUMB_NUMBER(result) == LEVEECRUMB_ACCEPTED ? answered(&q, size) : refused(result);
    /* An answer that nobody can read is none. */
    if (fflush(stdout) != 0 || ferror(stdout)) {
        fprintf(stderr, "daemon: the answer cannot be written\n");
        return NO_CHECK;
    }
    return status;
}
