/* The ask from C and C++: at each outcome its number, and every byte of the lent areas, with some behind the named parts. */
#include <stdio.h>
#include <string.h>

#include "expect.h"
#include "leveecrumb.h"

static const char ANSWER[] = "800100040002\n8103\n840303000003ec00000068\n";

static uint8_t text[LEVEECRUMB_TEXT_MOST];
static uint8_t store[LEVEECRUMB_STORE_LEAST + BEHIND];
static uint8_t bytes[LEVEECRUMB_WORK_LEAST + BEHIND + 1];
static uint8_t *const work = bytes + 1; /* at an odd address */
static uint8_t room[64];

/* Lengths of what is lent, and the result that is expected. */
static void ask(const char *name, size_t text_length, size_t store_length, size_t work_length, size_t room_length, uint8_t kind, uint32_t number, uint32_t value)
{
    static const char START[] = "/usr/bin/monitor/", TARGET[] = "/etc/ntp/sources/";
    uint64_t result;
    int loads = number == 0 || number == 17;
    memset(store, FILL, sizeof store);
    memset(bytes, FILL, sizeof bytes);
    memset(room, FILL, sizeof room);
    result = leveecrumb_ask(text, text_length, store, store_length, work, work_length, room, room_length, 1004, 104,
                            (const uint8_t *)START, sizeof START - 1, (const uint8_t *)TARGET, sizeof TARGET - 1, kind);
    expect(name, "the number", LEVEECRUMB_NUMBER(result) == number);
    expect(name, "the value", LEVEECRUMB_VALUE(result) == value);
    if (loads)
        expect(name, "the loaded policy", store[0] == LEVEECRUMB_FORM && store[1] == 4 && store[2] == 8);
    else
        expect(name, "the store", all(store, store + LEVEECRUMB_STORE_LEAST, number < 7 ? FILL : 0));
    expect(name, "behind the store", all(store + LEVEECRUMB_STORE_LEAST, store + sizeof store, FILL));
    expect(name, "the work area", all(work, work + LEVEECRUMB_WORK_LEAST, loads ? 0 : FILL));
    expect(name, "around the work area", bytes[0] == FILL && all(work + LEVEECRUMB_WORK_LEAST, bytes + sizeof bytes, FILL));
    if (number == 0) {
        expect(name, "the answer", memcmp(room, ANSWER, value) == 0);
        expect(name, "behind the answer", all(room + value, room + sizeof room, FILL));
    } else {
        expect(name, "the room", all(room, room + sizeof room, FILL));
    }
}

int main(int count, char **words)
{
    FILE *file = count == 2 ? fopen(words[1], "rb") : NULL;
    size_t size;
    if (file == NULL)
        return 1;
    size = fread(text, 1, sizeof text, file);
    fclose(file);
    ask("accepted", size, sizeof store, LEVEECRUMB_WORK_LEAST + BEHIND, sizeof room, LEVEECRUMB_WRITE, LEVEECRUMB_ACCEPTED, 41);
    ask("least lengths", size, LEVEECRUMB_STORE_LEAST, LEVEECRUMB_WORK_LEAST, 41, LEVEECRUMB_WRITE, LEVEECRUMB_ACCEPTED, 41);
    ask("room too short", size, LEVEECRUMB_STORE_LEAST, LEVEECRUMB_WORK_LEAST, 40, LEVEECRUMB_WRITE, LEVEECRUMB_ROOM_TOO_SHORT, 41);
    ask("no room", size, LEVEECRUMB_STORE_LEAST, LEVEECRUMB_WORK_LEAST, 0, LEVEECRUMB_WRITE, LEVEECRUMB_ROOM_TOO_SHORT, 41);
    ask("store too short", size, LEVEECRUMB_STORE_LEAST - 1, LEVEECRUMB_WORK_LEAST, sizeof room, LEVEECRUMB_WRITE, LEVEECRUMB_STORE_TOO_SHORT, 0);
    ask("work area too short", size, LEVEECRUMB_STORE_LEAST, LEVEECRUMB_WORK_LEAST - 1, sizeof room, LEVEECRUMB_WRITE, LEVEECRUMB_WORK_TOO_SHORT, 0);
    ask("two bytes of work", size, LEVEECRUMB_STORE_LEAST, 2, sizeof room, LEVEECRUMB_WRITE, LEVEECRUMB_WORK_TOO_SHORT, 0);
    ask("no kind", size, sizeof store, LEVEECRUMB_WORK_LEAST, sizeof room, 2, LEVEECRUMB_NO_KIND, 0);
    ask("no text", 0, sizeof store, LEVEECRUMB_WORK_LEAST, sizeof room, LEVEECRUMB_WRITE, LEVEECRUMB_NO_END, 0);
    ask("a cut line", size - 1, sizeof store, LEVEECRUMB_WORK_LEAST, sizeof room, LEVEECRUMB_WRITE, LEVEECRUMB_BAD_LINE, 39);
    return wrong;
}
