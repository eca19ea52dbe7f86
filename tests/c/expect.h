/* For areas.c and replay.c: what the lent areas hold before a call, and checks that say what is wrong after it. */
#ifndef EXPECT_H
#define EXPECT_H

#include <stdint.h>
#include <stdio.h>

#define BEHIND 8 /* bytes of an area behind its named part */
#define FILL 7   /* what each of its bytes holds before a call */

static int wrong = 0; /* the program's exit code */

/* Whether each byte from here to there is this one. */
static int all(const uint8_t *from, const uint8_t *to, uint8_t byte)
{
    for (; from < to; from++)
        if (*from != byte)
            return 0;
    return 1;
}

static void expect(const char *name, const char *what, int holds)
{
    if (!holds) {
        printf("%s: %s\n", name, what);
        wrong = 1;
    }
}

#endif
