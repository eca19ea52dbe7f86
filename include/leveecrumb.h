/*
 * Leveecrumb for C and C++: can an account ever come to read, or write, a file under a grsecurity RBAC policy?
 *
 * Link with libleveecrumb.a, for x86-64 Linux: `bin/install PREFIX` puts it, this file and one for pkg-config in their places. The library calls
 * memcpy and memset and nothing else: no heap, no file, nothing global that changes. Each call works on the areas that are lent to it, keeps no
 * pointer after it returns, and needs at most about 80 KB of stack. Calls from several threads are fine as long as no store, work area or room is
 * lent to two of them at once.
 *
 * Three calls: leveecrumb_ask answers the question; leveecrumb_replay checks a row of steps, an answer's or any other; leveecrumb_last_file says
 * where the path of the program stands that runs at their end.
 *
 * What is said here of the calls' results and of every byte of the areas is proved for all input: see docs/PROMISES.md.
 */
#ifndef LEVEECRUMB_H
#define LEVEECRUMB_H

#include <stddef.h>
#include <stdint.h>

#ifdef __cplusplus
extern "C" {
#endif

/* ---- the version ----------------------------------------------------------------------------------------------------------------------- */

/* Its one place: bin/pathcheck --version and the pkg-config file read it here. */
#define LEVEECRUMB_VERSION_MAJOR 0
#define LEVEECRUMB_VERSION_MINOR 1
#define LEVEECRUMB_VERSION_PATCH 0

/* As one number that grows with the version, for #if. */
#define LEVEECRUMB_VERSION_NUMBER (LEVEECRUMB_VERSION_MAJOR * 1000000 + LEVEECRUMB_VERSION_MINOR * 1000 + LEVEECRUMB_VERSION_PATCH)

/* As text, the three with dots between them. */
#define LEVEECRUMB_VERSION LEVEECRUMB_VERSION_OF(LEVEECRUMB_VERSION_MAJOR, LEVEECRUMB_VERSION_MINOR, LEVEECRUMB_VERSION_PATCH)
#define LEVEECRUMB_VERSION_OF(major, minor, patch) LEVEECRUMB_VERSION_JOIN(major, minor, patch)
#define LEVEECRUMB_VERSION_JOIN(major, minor, patch) #major "." #minor "." #patch

/* ---- sizes, in bytes ------------------------------------------------------------------------------------------------------------------- */

#define LEVEECRUMB_TEXT_MOST 32768   /* the longest policy text */
#define LEVEECRUMB_STORE_LEAST 16384 /* the shortest store; its first 16,384 bytes are used */
#define LEVEECRUMB_WORK_LEAST 49152  /* the shortest work area; its first 49,152 bytes are used */
#define LEVEECRUMB_PATH_MOST 64      /* the longest start or target */

/* The room may have any size. An answer has 13 bytes, and 5 to 23 for each step. */
#define LEVEECRUMB_ROOM_NEVER 13     /* enough for "never", and for an account that has the access already */
#define LEVEECRUMB_ROOM_USUAL 49152  /* the room of the program pathcheck */
#define LEVEECRUMB_ROOM_MOST 188406  /* never too short: refusal 17 cannot come */
#define LEVEECRUMB_STEPS_MOST 8191   /* the most steps of an answer */

/* ---- what is asked --------------------------------------------------------------------------------------------------------------------- */

#define LEVEECRUMB_READ 0  /* kind: can the account come to read the target? */
#define LEVEECRUMB_WRITE 1 /* kind: to write it? */

#define LEVEECRUMB_ID_MOST 4294967294u /* the largest UID or GID */
#define LEVEECRUMB_ID_NONE 4294967295u /* names nobody ("no change" in setreuid): refused */

/* ---- the result of an ask -------------------------------------------------------------------------------------------------------------- */

/* The number: 0 for an accepted ask, else the refusal. */
#define LEVEECRUMB_NUMBER(result) ((uint32_t)((uint64_t)(result) >> 32))

/* The value: of number 0 the answer's length, of 7 to 13 the line of the policy, counted from 1, of 17 the bytes needed, else 0. */
#define LEVEECRUMB_VALUE(result) ((uint32_t)((uint64_t)(result) & 0xffffffffu))

#define LEVEECRUMB_ACCEPTED 0

/* 1 to 6 come first, the lowest of them, and change nothing that was lent. */
#define LEVEECRUMB_TEXT_TOO_LONG 1   /* text too long */
#define LEVEECRUMB_STORE_TOO_SHORT 2 /* store too short */
#define LEVEECRUMB_WORK_TOO_SHORT 3  /* work area too short */
#define LEVEECRUMB_NO_PATH 4         /* start or target is no path, or over 64 bytes */
#define LEVEECRUMB_NOBODY 5          /* UID or GID is 4294967295 */
#define LEVEECRUMB_NO_KIND 6         /* kind is not 0 or 1 */

/* 7 to 13 are of a line: the first faulty line decides, and in it the lowest. 7 to 16 zero the store's first 16,384 bytes. */
#define LEVEECRUMB_BAD_LINE 7      /* line empty, with an odd number of digits, too long, with another byte, or without LF */
#define LEVEECRUMB_BAD_FRAME 8     /* unknown type or wrong length */
#define LEVEECRUMB_OUT_OF_ORDER 9  /* frame out of order, or after 7f */
#define LEVEECRUMB_OUT_OF_RANGE 10 /* field out of range, a number that names nothing, a role that is not special in 30's second place, a bad path,
                                      a list under mode 0 */
#define LEVEECRUMB_REPEATED 11     /* a second default, user UID, group GID, path, transition, entry, object in its entry, or listed id in its entry */
#define LEVEECRUMB_TABLE_FULL 12   /* one more than a table holds */
#define LEVEECRUMB_WRONG_COUNT 13  /* count in 7f wrong */

/* 14 to 17 are of the whole policy. */
#define LEVEECRUMB_NO_END 14          /* no 7f (also empty text) */
#define LEVEECRUMB_INCOMPLETE 15      /* no default role, a role without an entry for "/", an entry without an object "/" */
#define LEVEECRUMB_TOO_MANY_STATES 16 /* too many states */
#define LEVEECRUMB_ROOM_TOO_SHORT 17  /* the answer does not fit the room; the value is the bytes needed */

/* Given by the program pathcheck alone, never by a call of the library. */
#define LEVEECRUMB_NO_QUESTION 18 /* one of the three question lines is missing, or of wrong line form, type or length */

/* ---- the answer's lines ---------------------------------------------------------------------------------------------------------------- */

/*
 * Lowercase hexadecimal digits, two a byte, each line ended by LF (10); the text has no byte 0 at its end. The first byte of a line is its type;
 * numbers are big-endian. The first line is 80. If its verdict is "reached", one line follows for each step: the fewest steps that get there.
 */
#define LEVEECRUMB_LINE_ANSWER 0x80  /* verdict (1 byte), states opened (2), steps (2) */
#define LEVEECRUMB_LINE_SPECIAL 0x81 /* take a special role: its number, or ff for none */
#define LEVEECRUMB_LINE_USER 0x82    /* set the UID (4) */
#define LEVEECRUMB_LINE_GROUP 0x83   /* set the GID (4) */
#define LEVEECRUMB_LINE_EXEC 0x84    /* run a program: object path's number, executed path's number (1 byte each), UID (4) and GID (4) after it */
#define LEVEECRUMB_LINE_REFUSED 0x8f /* printed by pathcheck: number (1), line (2) */

/* What a verdict means is proved of the bytes in the room (docs/PROMISES.md, `coded_tells`). */
#define LEVEECRUMB_NEVER 0   /* verdict: no run of steps, of any length, on any file system, gets there */
#define LEVEECRUMB_REACHED 1 /* verdict: the shown steps get there on every file system that has the named files, and no fewer steps on any */

#define LEVEECRUMB_NONE 0xff /* no special role */

/* Roles and paths are numbered from 0, in the order of the policy's lines 10 and 20. */

/* ---- the policy's lines ---------------------------------------------------------------------------------------------------------------- */

#define LEVEECRUMB_DIGITS_MOST 160 /* the most digits of a line */

/* Frame types, in their order. A group is one 40 with its 41s, 42s and 43s. */
#define LEVEECRUMB_FRAME_FORM 0x01    /* form, 01 */
#define LEVEECRUMB_FRAME_ROLE 0x10    /* kind, id (4) */
#define LEVEECRUMB_FRAME_PATH 0x20    /* path */
#define LEVEECRUMB_FRAME_MOVE 0x30    /* role, special role that it may take */
#define LEVEECRUMB_FRAME_ENTRY 0x40   /* role, subject path, capabilities, user mode, group mode */
#define LEVEECRUMB_FRAME_OBJECT 0x41  /* object path, modes */
#define LEVEECRUMB_FRAME_UID 0x42     /* UID (4) */
#define LEVEECRUMB_FRAME_GID 0x43     /* GID (4) */
#define LEVEECRUMB_FRAME_END 0x7f     /* count of frames before it (2) */

#define LEVEECRUMB_FORM 1 /* the form that 01 names */

/* Kinds of roles. */
#define LEVEECRUMB_ROLE_USER 0x75    /* 'u', its id is a UID */
#define LEVEECRUMB_ROLE_GROUP 0x67   /* 'g', its id is a GID */
#define LEVEECRUMB_ROLE_SPECIAL 0x73 /* 's', its id is 0 */
#define LEVEECRUMB_ROLE_DEFAULT 0x2d /* '-', its id is 0 */

/* Capabilities of an entry. */
#define LEVEECRUMB_SET_UID 1
#define LEVEECRUMB_SET_GID 2

/* User mode and group mode of an entry. */
#define LEVEECRUMB_IDS_ALL 0        /* all are allowed */
#define LEVEECRUMB_IDS_LISTED 1     /* only those listed */
#define LEVEECRUMB_IDS_NOT_LISTED 2 /* all but those listed */

/* Modes of an object. */
#define LEVEECRUMB_MODE_READ 1
#define LEVEECRUMB_MODE_WRITE 2
#define LEVEECRUMB_MODE_EXEC 4
#define LEVEECRUMB_MODE_HIDE 8
#define LEVEECRUMB_MODE_APPEND 16 /* carried; grants neither read nor write */

/* The most that a policy may have: one more is refused with 12, more states with 16. */
#define LEVEECRUMB_USER_ROLES_MOST 15
#define LEVEECRUMB_GROUP_ROLES_MOST 7
#define LEVEECRUMB_SPECIAL_ROLES_MOST 7
#define LEVEECRUMB_PATHS_MOST 96
#define LEVEECRUMB_ENTRIES_MOST 64
#define LEVEECRUMB_OBJECTS_MOST 512 /* of all entries */
#define LEVEECRUMB_UIDS_MOST 16     /* of an entry */
#define LEVEECRUMB_GIDS_MOST 16     /* of an entry */
#define LEVEECRUMB_STATES_MOST 8192 /* (special roles + 1) x (user roles + 1) x (group roles + 1) x subject paths */

/* Question lines in front of the policy: read by pathcheck alone. */
#define LEVEECRUMB_LINE_QUESTION 0x60 /* kind (1), UID (4), GID (4) */
#define LEVEECRUMB_LINE_START 0x61    /* start */
#define LEVEECRUMB_LINE_TARGET 0x62   /* target */

/* ---- the ask --------------------------------------------------------------------------------------------------------------------------- */

/*
 * Asks whether the account with this UID and GID, which began in the file `start` with no special role, can come to read or write `target`.
 *
 *   text    the policy, one frame a line, without question lines. Read only.
 *   store   where the policy is loaded.
 *   work    the search's own area. It is lent as bytes, need not be aligned, and may hold anything.
 *   room    where the answer's lines go.
 *   start, target   paths: "/", or names between slashes with a slash at both ends, as "/usr/bin/monitor/". Bytes, with no 0 at the end. Read only.
 *
 * Each area is a pointer to so many bytes. No pointer may be NULL, also where the length is 0. Store, work area and room must not overlap one
 * another, nor any of the three that are read; text, start and target may. Every value of every argument has its answer: a damaged policy, or a
 * length that is too short, is refused and nothing is read or written past an area's end.
 *
 * After the call:
 *
 *   number     room                                  store, first 16,384 bytes     work area, first 49,152 bytes
 *   0          the answer in front, the rest kept    the loaded policy             zero
 *   17         kept                                  the loaded policy             zero
 *   7 to 16    kept                                  zero                          kept
 *   1 to 6     kept                                  kept                          kept
 *
 * Store and work area keep everything behind those bytes. The loaded policy's layout is in docs/LAYOUT.md.
 *
 * The result has the number in its upper 32 bits and the value in its lower 32: LEVEECRUMB_NUMBER, LEVEECRUMB_VALUE.
 */
uint64_t leveecrumb_ask(const uint8_t *text, size_t text_length,
                        uint8_t *store, size_t store_length,
                        uint8_t *work, size_t work_length,
                        uint8_t *room, size_t room_length,
                        uint32_t uid, uint32_t gid,
                        const uint8_t *start, size_t start_length,
                        const uint8_t *target, size_t target_length,
                        uint8_t kind);

/* ---- the replay ------------------------------------------------------------------------------------------------------------------------ */

/*
 * A step record: what a step line of an answer says. The kind is the line's type. A field that is not named for its kind must be 0; a record with
 * another kind, or with an unused field filled, is no step. So set the whole record to 0 and then fill in:
 *
 *   kind                       fields
 *   LEVEECRUMB_LINE_SPECIAL    role: the special role's number, or 255 (LEVEECRUMB_NONE) for no special role
 *   LEVEECRUMB_LINE_USER       uid
 *   LEVEECRUMB_LINE_GROUP      gid
 *   LEVEECRUMB_LINE_EXEC       object, file: the numbers of the object path and of the executed path; uid, gid: those after it, kept or changed
 *
 * The role is 255 for no special role in the first kind alone; in the other three it is unused, and 0. A record has 16 bytes, as C lays it out; the
 * bytes between the fields do not matter.
 */
struct leveecrumb_step {
    uint8_t kind;
    uint8_t role;
    uint32_t uid;
    uint32_t gid;
    uint8_t object;
    uint8_t file;
};

/* The verdict on a row of records. */
#define LEVEECRUMB_REPLAY_REFUSED 0 /* none: the replay is refused, with a number and a line */
#define LEVEECRUMB_REPLAY_HOLDS 1   /* each record is a real step from where the one before it led, and the access is granted at the end */
#define LEVEECRUMB_REPLAY_NO_STEP 2 /* a record is no real step: `first` says which */
#define LEVEECRUMB_REPLAY_DENIED 3  /* each record is a real step, and the access is not granted at the end */

#define LEVEECRUMB_FILE_START 255 /* no path's number: nothing was executed, the start runs at the end */

struct leveecrumb_replayed {
    uint8_t number;  /* the refusal, as of an ask: 1, 2, or 4 to 16; 0 for none */
    uint8_t verdict; /* LEVEECRUMB_REPLAY_... */
    uint8_t file;    /* if it holds, the path number of the file that was executed last, or LEVEECRUMB_FILE_START; else 255 */
    size_t line;     /* of 7 to 13 the line of the policy, counted from 1; else 0 */
    size_t first;    /* of NO_STEP the first record that is no real step, counted from 0; else 0 */
};

/*
 * Walks a row of step records from the start that an ask has, under the rules for real steps: is it a run that brings the account with this UID and
 * GID to read or write `target`?
 *
 *   steps   the records, an array of `count` of them, in the order of the run. Read only.
 *
 * The other arguments are the ask's, and what is said there of pointers, lengths and values holds here too: steps may not be NULL, also where count
 * is 0, and the store must not overlap what is read. There is neither work area nor room, so refusals 3 and 17 cannot come. After a refusal no
 * record is looked at. No file system is asked: each executed file counts as being there. An empty row holds if the start has the access already.
 * The steps of an answer always hold, for the question that was asked.
 *
 * After the call the store is as an ask leaves it, whatever the verdict:
 *
 *   number     store, first 16,384 bytes
 *   0          the loaded policy
 *   7 to 16    zero
 *   1 to 6     kept
 *
 * and keeps everything behind those bytes.
 */
struct leveecrumb_replayed leveecrumb_replay(const uint8_t *text, size_t text_length,
                                             uint8_t *store, size_t store_length,
                                             uint32_t uid, uint32_t gid,
                                             const uint8_t *start, size_t start_length,
                                             const uint8_t *target, size_t target_length,
                                             uint8_t kind,
                                             const struct leveecrumb_step *steps, size_t count);

/* ---- the last file's path -------------------------------------------------------------------------------------------------------------- */

/* A part of one of the two areas that are lent to leveecrumb_last_file. */
#define LEVEECRUMB_PART_OF_START 0
#define LEVEECRUMB_PART_OF_STORE 1

struct leveecrumb_part {
    uint8_t stored; /* LEVEECRUMB_PART_OF_START or LEVEECRUMB_PART_OF_STORE */
    size_t from;    /* where the part begins in that area */
    size_t size;    /* its bytes; from + size is at most the area's length */
};

/*
 * The path of the last file, by the number that a replay gave as `file`, with that replay's start and the store as it was left. Both are read only,
 * and may be any bytes of any length; no pointer may be NULL.
 *
 *   number 255   the whole start
 *   else         the path with that number in the store: of the loaded policy, if a replay or an ask left one there; or, if the store's bytes name no
 *                such path inside it, the empty part in front of the store (from 0, size 0)
 *
 * The path's bytes, with no 0 at the end, are the `size` bytes at
 *
 *   (part.stored == LEVEECRUMB_PART_OF_START ? start : store) + part.from
 *
 * and stand there for as long as that area is not changed.
 */
struct leveecrumb_part leveecrumb_last_file(const uint8_t *start, size_t start_length,
                                            const uint8_t *store, size_t store_length,
                                            uint8_t number);

#ifdef __cplusplus
}
#endif

#endif
