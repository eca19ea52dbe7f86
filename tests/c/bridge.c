/*
 * The library in a process of its own, for a program that cannot be linked with it: reads calls on standard input until its end, makes each one,
 * and writes back what it returns and all that it was lent. It judges nothing.
 *
 * A call is one byte, then UID, GID and kind, then the length of each of its areas, then the areas. A number has 4 bytes and is big-endian. An area
 * comes and goes as a whole buffer: GUARD bytes, its own, GUARD bytes. Only its own are lent.
 *
 *   call   areas                                    what is written back, before all areas
 *   a      text, start, target, store, work, room   the result, 8 bytes
 *   r      text, start, target, store, steps        number, verdict and file, 1 byte each, line and first, 8 each
 *   l      start, store, numbers                    for each byte of numbers: stored, 1 byte, from and size, 8 each
 *
 * Steps are records as C lays them. An end of input between calls: 0. Inside a call, or a call that is none of these: a message, and 1.
 */
#include <stdio.h>
#include <stdlib.h>

#include "leveecrumb.h"

#define GUARD 64
#define BUFFER 65536 /* of standard input and output */

enum { TEXT, START, TARGET, STORE, WORK, ROOM, AREAS, STEPS = WORK };

static struct {
    uint8_t *whole;
    size_t length; /* of the area itself */
} areas[AREAS];

#define OWN(area) (areas[area].whole + GUARD)
#define LENT(area) OWN(area), areas[area].length

static void fail(const char *message)
{
    fprintf(stderr, "bridge: %s\n", message);
    exit(1);
}

static void get(uint8_t *bytes, size_t length)
{
    if (fread(bytes, 1, length, stdin) != length)
        fail("the input ends inside a call");
}

static uint32_t get_number(void)
{
    uint8_t b[4];
    get(b, sizeof b);
    return (uint32_t)b[0] << 24 | (uint32_t)b[1] << 16 | (uint32_t)b[2] << 8 | b[3];
}

static void put(const uint8_t *bytes, size_t length)
{
    if (fwrite(bytes, 1, length, stdout) != length)
        fail("the output cannot be written");
}

static void put_byte(uint8_t byte)
{
    put(&byte, 1);
}

static void put_number(uint64_t number)
{
    uint8_t b[8];
    int n;
    for (n = 7; n >= 0; n--, number >>= 8)
        b[n] = (uint8_t)number;
    put(b, sizeof b);
}

/* Reads these areas of a call, each into a buffer of its own. */
static void get_areas(const int *which, int count)
{
    int n;
    for (n = 0; n < count; n++)
        areas[which[n]].length = get_number();
    for (n = 0; n < count; n++) {
        size_t size = areas[which[n]].length + 2 * GUARD;
        uint8_t *whole = (uint8_t *)realloc(areas[which[n]].whole, size);
        if (whole == NULL)
            fail("there is no memory for an area");
        areas[which[n]].whole = whole;
        get(whole, size);
    }
}

static void put_areas(const int *which, int count)
{
    int n;
    for (n = 0; n < count; n++)
        put(areas[which[n]].whole, areas[which[n]].length + 2 * GUARD);
}

static void ask(uint32_t uid, uint32_t gid, uint8_t kind)
{
    static const int LENDS[] = {TEXT, START, TARGET, STORE, WORK, ROOM};
    get_areas(LENDS, 6);
    put_number(leveecrumb_ask(LENT(TEXT), LENT(STORE), LENT(WORK), LENT(ROOM), uid, gid, LENT(START), LENT(TARGET), kind));
    put_areas(LENDS, 6);
}

static void replay(uint32_t uid, uint32_t gid, uint8_t kind)
{
    static const int LENDS[] = {TEXT, START, TARGET, STORE, STEPS};
    struct leveecrumb_replayed said;
    get_areas(LENDS, 5);
    if (areas[STEPS].length % sizeof(struct leveecrumb_step) != 0)
        fail("the steps are no whole records");
    said = leveecrumb_replay(LENT(TEXT), LENT(STORE), uid, gid, LENT(START), LENT(TARGET), kind,
                             (const struct leveecrumb_step *)(const void *)OWN(STEPS), areas[STEPS].length / sizeof(struct leveecrumb_step));
    put_byte(said.number);
    put_byte(said.verdict);
    put_byte(said.file);
    put_number(said.line);
    put_number(said.first);
    put_areas(LENDS, 5);
}

static void last_files(void)
{
    enum { NUMBERS = TEXT };
    static const int LENDS[] = {START, STORE, NUMBERS};
    size_t n;
    get_areas(LENDS, 3);
    for (n = 0; n < areas[NUMBERS].length; n++) {
        struct leveecrumb_part part = leveecrumb_last_file(LENT(START), LENT(STORE), OWN(NUMBERS)[n]);
        put_byte(part.stored);
        put_number(part.from);
        put_number(part.size);
    }
    put_areas(LENDS, 3);
}

static void make(int call)
{
    uint32_t uid, gid, kind;
    if (call != 'a' && call != 'r' && call != 'l')
        fail("there is no such call");
    uid = get_number();
    gid = get_number();
    kind = get_number();
    if (call == 'a')
        ask(uid, gid, (uint8_t)kind);
    else if (call == 'r')
        replay(uid, gid, (uint8_t)kind);
    else
        last_files();
}

int main(void)
{
    int call;
    setvbuf(stdin, NULL, _IOFBF, BUFFER);
    setvbuf(stdout, NULL, _IOFBF, BUFFER);
    while ((call = getchar()) != EOF) {
        make(call);
        if (fflush(stdout) != 0)
            fail("the output cannot be written");
    }
    if (ferror(stdin))
        fail("the input cannot be read");
    return 0;
}
