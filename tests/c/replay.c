/* The replay and the last file's path from C and C++: what they hand back, every byte of the store, and how the structs lie in memory. */
#include <stddef.h>
#include <string.h>

#include "expect.h"
#include "leveecrumb.h"

/* ---- the structs, as the library has them ---- */

#define CHECK(name, holds) typedef char check_##name[(holds) ? 1 : -1]
#define LIES(type, field, at) CHECK(type##_##field, offsetof(struct leveecrumb_##type, field) == (at))

CHECK(size, sizeof(size_t) == 8);

CHECK(step, sizeof(struct leveecrumb_step) == 16);
LIES(step, kind, 0);
LIES(step, role, 1);
LIES(step, uid, 4);
LIES(step, gid, 8);
LIES(step, object, 12);
LIES(step, file, 13);

CHECK(replayed, sizeof(struct leveecrumb_replayed) == 24);
LIES(replayed, number, 0);
LIES(replayed, verdict, 1);
LIES(replayed, file, 2);
LIES(replayed, line, 8);
LIES(replayed, first, 16);

CHECK(part, sizeof(struct leveecrumb_part) == 24);
LIES(part, stored, 0);
LIES(part, from, 8);
LIES(part, size, 16);

/* ---- the listing's policy, its own steps, and others ---- */

static const char POLICY[] = "0101\n102d00000000\n1075000003e8\n107300000000\n202f\n202f62696e2f\n202f6574632f\n300102\n"
                             "400000000101\n410008\n400100000101\n410001\n410208\n400200000101\n410001\n410105\n"
                             "400201000101\n410001\n410203\n7f0013\n";
static const char NO_LINE_7F[] = "0101\n102d00000000\n";
static const char TWO_DEFAULTS[] = "0101\n102d00000000\n102d00000000\n";
static char too_long[LEVEECRUMB_TEXT_MOST + 2]; /* one byte more than is accepted, and a 0 */
static const char START[] = "/", NTP[] = "/etc/ntp/", NO_SLASH[] = "/etc/ntp";
static const char *const PATHS[] = {"/", "/bin/", "/etc/"};

#define TAKE {LEVEECRUMB_LINE_SPECIAL, 2, 0, 0, 0, 0}
#define LEAVE {LEVEECRUMB_LINE_SPECIAL, LEVEECRUMB_NONE, 0, 0, 0, 0}
#define RUN {LEVEECRUMB_LINE_EXEC, 0, 1000, 100, 1, 1}

typedef struct leveecrumb_step step;

static const step OWN[] = {TAKE, RUN};
static const step BACK[] = {TAKE, RUN, LEAVE, TAKE};
static const step LEFT[] = {TAKE, RUN, LEAVE};
static const step NO_KIND[] = {{0x85, 2, 0, 0, 0, 0}, RUN};
static const step FILLED[] = {{LEVEECRUMB_LINE_SPECIAL, 2, 1000, 0, 0, 0}, RUN};
static const step WITH_ROLE[] = {TAKE, {LEVEECRUMB_LINE_EXEC, LEVEECRUMB_NONE, 1000, 100, 1, 1}};
static const step OTHER_OBJECT[] = {TAKE, {LEVEECRUMB_LINE_EXEC, 0, 1000, 100, 0, 1}};
static const step NO_FILE[] = {TAKE, {LEVEECRUMB_LINE_EXEC, 0, 1000, 100, 1, 3}};
static const step NO_CAPABILITY[] = {TAKE, {LEVEECRUMB_LINE_USER, 0, 1000, 0, 0, 0}};
static const step NOBODY[] = {TAKE, {LEVEECRUMB_LINE_EXEC, 0, LEVEECRUMB_ID_NONE, 100, 1, 1}};
static const step TWICE[] = {TAKE, RUN, RUN};

/* ---- what is replayed, and what is expected ---- */

struct replay {
    const char *name;
    const char *text;
    size_t store_length;
    uint32_t uid;
    const char *target;
    uint8_t kind;
    const step *steps;
    size_t count;
    struct leveecrumb_replayed expected;
    const char *last; /* the path of the file that runs at the end */
};

#define ROW(steps) steps, sizeof steps / sizeof *steps
#define NO_ROW OWN, 0
#define LEAST LEVEECRUMB_STORE_LEAST
#define WRITE 1000, NTP, LEVEECRUMB_WRITE
#define READ 1000, NTP, LEVEECRUMB_READ
#define HOLDS(file) {LEVEECRUMB_ACCEPTED, LEVEECRUMB_REPLAY_HOLDS, file, 0, 0}
#define NO_STEP(first) {LEVEECRUMB_ACCEPTED, LEVEECRUMB_REPLAY_NO_STEP, 255, 0, first}
#define DENIED {LEVEECRUMB_ACCEPTED, LEVEECRUMB_REPLAY_DENIED, 255, 0, 0}
#define REFUSED(number, line) {number, LEVEECRUMB_REPLAY_REFUSED, 255, line, 0}

static const struct replay REPLAYS[] = {
    {"its own steps", POLICY, LEAST, WRITE, ROW(OWN), HOLDS(1), "/bin/"},
    {"a longer store", POLICY, LEAST + BEHIND, WRITE, ROW(OWN), HOLDS(1), "/bin/"},
    {"there and back", POLICY, LEAST, WRITE, ROW(BACK), HOLDS(1), "/bin/"},
    {"nothing executed", POLICY, LEAST, READ, OWN, 1, HOLDS(LEVEECRUMB_FILE_START), START},
    {"an empty row at the access", POLICY, LEAST, 1000, "/", LEVEECRUMB_READ, NO_ROW, HOLDS(LEVEECRUMB_FILE_START), START},
    {"an empty row", POLICY, LEAST, WRITE, NO_ROW, DENIED, START},
    {"a short row", POLICY, LEAST, WRITE, OWN, 1, DENIED, START},
    {"a role left", POLICY, LEAST, WRITE, ROW(LEFT), DENIED, START},
    {"another account", POLICY, LEAST, 1001, NTP, LEVEECRUMB_WRITE, ROW(OWN), NO_STEP(0), START},
    {"no kind of step", POLICY, LEAST, WRITE, ROW(NO_KIND), NO_STEP(0), START},
    {"a filled field", POLICY, LEAST, WRITE, ROW(FILLED), NO_STEP(0), START},
    {"a role in an exec", POLICY, LEAST, WRITE, ROW(WITH_ROLE), NO_STEP(1), START},
    {"an object of another file", POLICY, LEAST, WRITE, ROW(OTHER_OBJECT), NO_STEP(1), START},
    {"no such file", POLICY, LEAST, WRITE, ROW(NO_FILE), NO_STEP(1), START},
    {"no capability", POLICY, LEAST, WRITE, ROW(NO_CAPABILITY), NO_STEP(1), START},
    {"a change to nobody", POLICY, LEAST, WRITE, ROW(NOBODY), NO_STEP(1), START},
    {"run twice", POLICY, LEAST, WRITE, ROW(TWICE), NO_STEP(2), START},
    {"text too long", too_long, LEAST, WRITE, ROW(OWN), REFUSED(LEVEECRUMB_TEXT_TOO_LONG, 0), START},
    {"store too short", POLICY, LEAST - 1, WRITE, ROW(OWN), REFUSED(LEVEECRUMB_STORE_TOO_SHORT, 0), START},
    {"no path", POLICY, LEAST, 1000, NO_SLASH, LEVEECRUMB_WRITE, ROW(OWN), REFUSED(LEVEECRUMB_NO_PATH, 0), START},
    {"nobody", POLICY, LEAST, LEVEECRUMB_ID_NONE, NTP, LEVEECRUMB_WRITE, ROW(OWN), REFUSED(LEVEECRUMB_NOBODY, 0), START},
    {"no kind of access", POLICY, LEAST, 1000, NTP, 2, ROW(OWN), REFUSED(LEVEECRUMB_NO_KIND, 0), START},
    {"a second default", TWO_DEFAULTS, LEAST, WRITE, ROW(OWN), REFUSED(LEVEECRUMB_REPEATED, 3), START},
    {"no end", NO_LINE_7F, LEAST, WRITE, ROW(OWN), REFUSED(LEVEECRUMB_NO_END, 0), START},
    {"no text", "", LEAST, WRITE, NO_ROW, REFUSED(LEVEECRUMB_NO_END, 0), START},
};

static uint8_t store[LEVEECRUMB_STORE_LEAST + BEHIND];

static const uint8_t *bytes(const char *words)
{
    return (const uint8_t *)words;
}

/* The last file by its number: the whole start for 255, else a part of the store with this path's bytes; an empty one is in front. */
static void last(const char *name, size_t store_length, uint8_t number, const char *path)
{
    struct leveecrumb_part part = leveecrumb_last_file(bytes(START), strlen(START), store, store_length, number);
    int of_start = number == LEVEECRUMB_FILE_START;
    const uint8_t *area = of_start ? bytes(START) : store;
    size_t length = of_start ? strlen(START) : store_length;
    int inside = part.size == strlen(path) && part.size <= length && part.from <= length - part.size;
    expect(name, "the last file's area", part.stored == (of_start ? LEVEECRUMB_PART_OF_START : LEVEECRUMB_PART_OF_STORE));
    expect(name, "the last file's part", inside && (part.size != 0 || part.from == 0));
    if (inside)
        expect(name, "the last file's bytes", memcmp(area + part.from, path, part.size) == 0);
}

static void replay(const struct replay *r)
{
    struct leveecrumb_replayed said;
    memset(store, FILL, sizeof store);
    said = leveecrumb_replay(bytes(r->text), strlen(r->text), store, r->store_length, r->uid, 100, bytes(START), strlen(START),
                             bytes(r->target), strlen(r->target), r->kind, r->steps, r->count);
    expect(r->name, "the number", said.number == r->expected.number);
    expect(r->name, "the verdict", said.verdict == r->expected.verdict);
    expect(r->name, "the file", said.file == r->expected.file);
    expect(r->name, "the line", said.line == r->expected.line);
    expect(r->name, "the first that is no step", said.first == r->expected.first);
    if (said.number == LEVEECRUMB_ACCEPTED)
        expect(r->name, "the loaded policy", store[0] == LEVEECRUMB_FORM && store[1] == 3 && store[2] == 3);
    else
        expect(r->name, "the store", all(store, store + LEVEECRUMB_STORE_LEAST, said.number < 7 ? FILL : 0));
    expect(r->name, "behind the store", all(store + LEVEECRUMB_STORE_LEAST, store + sizeof store, FILL));
    last(r->name, r->store_length, said.file, r->last);
}

/* Records in memory that held something else: what is between the fields does not matter. */
static void dirty(void)
{
    step rows[2];
    struct replay r = REPLAYS[0];
    size_t i;
    memset(rows, 0xff, sizeof rows);
    for (i = 0; i < 2; i++) {
        rows[i].kind = OWN[i].kind;
        rows[i].role = OWN[i].role;
        rows[i].uid = OWN[i].uid;
        rows[i].gid = OWN[i].gid;
        rows[i].object = OWN[i].object;
        rows[i].file = OWN[i].file;
    }
    r.name = "dirty records";
    r.steps = rows;
    replay(&r);
}

/* Every number: with a loaded store, one cut short, none, and one of zeros. */
static void paths(void)
{
    unsigned number;
    replay(&REPLAYS[0]);
    for (number = 0; number < 255; number++) {
        last("a loaded store", sizeof store, (uint8_t)number, number < 3 ? PATHS[number] : "");
        last("a cut store", 2948, (uint8_t)number, "");
        last("no store", 0, (uint8_t)number, "");
    }
    memset(store, 0, sizeof store);
    for (number = 0; number < 255; number++)
        last("a store of zeros", sizeof store, (uint8_t)number, "");
    last("a store of zeros", sizeof store, LEVEECRUMB_FILE_START, START);
    last("no store", 0, LEVEECRUMB_FILE_START, START);
}

int main(void)
{
    size_t i;
    memset(too_long, '0', sizeof too_long - 1);
    for (i = 0; i < sizeof REPLAYS / sizeof *REPLAYS; i++)
        replay(&REPLAYS[i]);
    dirty();
    paths();
    return wrong;
}
