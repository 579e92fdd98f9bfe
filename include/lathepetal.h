/* Lathepetal: the registry work of a MOST NetworkMaster for one ring, a unit of that ring to bench a master with, two listings of a ring
 * compared, and the cutting and joining of telegrams.
 *
 * A record (bytes) goes in with the ring picture; the next picture comes back, and the orders stand in a lent buffer. An order goes in
 * with a unit; the unit comes back, and its answer, a record, stands in a lent buffer. The library is the archive liblathepetal.a for
 * x86-64. It needs memcpy, memmove and memset and nothing else.
 *
 * What a caller keeps to:
 * - A picture handed to lathepetal_record is one that the box handed out, from lathepetal_fresh or from an earlier lathepetal_record,
 *   unchanged. It is plain data and may be copied and stored. The other functions take any picture, any rows, any unit and any join
 *   state.
 * - A pointer and the length behind it describe memory that is there: readable where the pointer is const, writable where it is not, and
 *   no longer than PTRDIFF_MAX bytes. The length behind a pointer to structs is their number, and the pointer is aligned as theirs are. A
 *   pointer is not NULL, not even with length 0; with length 0 nothing is read or written.
 * - Within one call a lent buffer overlaps nothing else that the call reads or writes. The two lists of rows of a comparison may overlap or
 *   be one.
 * - A message is joined in one buffer: the same one is lent for each of its telegrams, and unchanged in between.
 *
 * What the box guarantees, proved for any bytes, numbers and room:
 * - Each call returns, with an answer or with the number of a refusal. The first field of each outcome is that number, 0 where
 *   there is none.
 * - Beside a refusal every length, position, address and MsgID is 0. A refusal changes nothing: the picture, unit or state that comes back
 *   is the one that went in, and the lent buffer is as it was. Three differ in part: 16 ends the open message (the buffer is as it was),
 *   with 10 lathepetal_fresh hands back a picture for L = 12, and with 2 lathepetal_unit a unit without pairs.
 * - Lent bytes beyond those that are written never change.
 * - A picture that is handed out shows no other marks and counts than those that are named below: its state and the status of every entry
 *   are values of their enums, its delay is 0 or 1, it has at most LATHEPETAL_MAX_UNITS units, and no entry has more than
 *   LATHEPETAL_MAX_PAIRS pairs; its address, count, place and tries are 0 where they do not count. That holds for all entries of the
 *   array, also for those behind the last unit.
 * - A unit that lathepetal_unit makes has at most LATHEPETAL_MAX_PAIRS pairs and keeps at most LATHEPETAL_MAX_ANSWERS answers, and so does
 *   every unit that comes of it.
 * - One picture and one unit, both fresh at first, where the unit reads all orders of each record and look-ups are asked and learned
 *   between records: while the picture is OK, every answer that the unit keeps is in its listing with that address.
 * - The rows that lathepetal_listed_rows hands out of a picture that the box handed out are never refused 2 or 20, and with
 *   LATHEPETAL_DIFFERENCES_ROOM bytes of room no comparison is refused 21.
 *
 * The box keeps nothing between calls: no globals, no allocation, no locks. Threads may call at the same time, each with its own picture,
 * state and buffers. Stack, with the copies that a call passes and returns: lathepetal_record up to 32 KiB, lathepetal_listing and
 * lathepetal_compare 24 KiB, lathepetal_listed_rows 16 KiB, the others 8 KiB. */
#ifndef LATHEPETAL_H
#define LATHEPETAL_H

#include <stddef.h>
#include <stdint.h>

#ifdef __cplusplus
extern "C" {
#endif

/* Sizes. */
#define LATHEPETAL_MIN_SIZE 12       /* L, the payload size of a telegram: from here */
#define LATHEPETAL_MAX_SIZE 45       /* to here */
#define LATHEPETAL_MAX_UNITS 63      /* units with an entry: positions 1 and above */
#define LATHEPETAL_MAX_PAIRS 24      /* pairs that an entry keeps */
#define LATHEPETAL_MIN_ROOM 8192     /* the least room for orders, which is enough for each record */
#define LATHEPETAL_MAX_PAYLOAD 65535 /* the longest message, and the least join buffer */
#define LATHEPETAL_MAX_ANSWERS 64    /* look-up answers that a unit keeps */
#define LATHEPETAL_MIN_ANSWER_ROOM 64 /* the least room for a unit's ANSWER, which is enough for each */
#define LATHEPETAL_LINE_SIZE 6       /* the bytes of a difference of two lists of rows */
/* The entries of a picture, one for each unit; the places of a listing; the longest telegram. */
#define LATHEPETAL_MAX_ENTRIES LATHEPETAL_MAX_UNITS
#define LATHEPETAL_MAX_LISTED (LATHEPETAL_MAX_UNITS * LATHEPETAL_MAX_PAIRS)
#define LATHEPETAL_MAX_TELEGRAM (6 + LATHEPETAL_MAX_SIZE)
/* The most differences of two lists of rows, and the room that is enough for each comparison. */
#define LATHEPETAL_MAX_LINES (LATHEPETAL_MAX_UNITS * (1 + 2 * LATHEPETAL_MAX_PAIRS))
#define LATHEPETAL_DIFFERENCES_ROOM (LATHEPETAL_LINE_SIZE * LATHEPETAL_MAX_LINES)

/* Numbers given back. Records are checked in the order 1 to 9, cutting 10, 11, 12, 13, joining 10, 13, 14, 15, 16, look-up 18, 17, an
 * order that a unit reads 1, 2, two lists of rows 2, 20, 21. */
enum lathepetal_number {
    LATHEPETAL_DONE = 0,
    LATHEPETAL_ORDER_ROOM_TOO_SHORT = 1, /* order room below LATHEPETAL_MIN_ROOM bytes; of a unit, room below LATHEPETAL_MIN_ANSWER_ROOM */
    LATHEPETAL_RECORD_MALFORMED = 2,     /* length, mark, kind, unused field not 0, N, count above LATHEPETAL_MAX_PAIRS, block 00, 01, FF;
                                            an order's length, mark, kind; a unit's pairs above LATHEPETAL_MAX_PAIRS, or half a pair;
                                            a row's position outside 1 to LATHEPETAL_MAX_UNITS, more than LATHEPETAL_MAX_PAIRS pairs, a
                                            pair twice */
    LATHEPETAL_NOT_RUNNING = 3,          /* any kind but START while OFF */
    LATHEPETAL_ALREADY_RUNNING = 4,      /* START while running */
    LATHEPETAL_WRONG_PASS = 5,           /* ANSWER, NONE, DELAY: the pass is not the current one */
    LATHEPETAL_NO_SUCH_POSITION = 6,     /* ANSWER, NONE: position 0, or N and above */
    LATHEPETAL_POSITION_IGNORED = 7,     /* ANSWER, NONE: the position is IGNORED */
    LATHEPETAL_NOT_ASKED = 8,            /* NONE without open question; ANSWER in NOTOK without one; DELAY with none running */
    LATHEPETAL_NO_PASS_LEFT = 9,         /* the pass would exceed 4,294,967,295 */
    LATHEPETAL_ILLEGAL_SIZE = 10,        /* L outside LATHEPETAL_MIN_SIZE to LATHEPETAL_MAX_SIZE */
    LATHEPETAL_PAYLOAD_TOO_LONG = 11,    /* payload above LATHEPETAL_MAX_PAYLOAD bytes */
    LATHEPETAL_NO_SUCH_TELEGRAM = 12,    /* telegram number outside 1 to the count */
    LATHEPETAL_ROOM_TOO_SHORT = 13,      /* lent room shorter than the telegram; join buffer below LATHEPETAL_MAX_PAYLOAD bytes */
    LATHEPETAL_TELEGRAM_MALFORMED = 14,  /* below 6 bytes, TelLen wrong or above L, TelID 1 to 3 with TelLen 0 */
    LATHEPETAL_TEL_ID_PASSED_OVER = 15,  /* TelID 4 or above */
    LATHEPETAL_OUT_OF_SEQUENCE = 16,     /* TelID 2 or 3 with none open, other MsgID or counter; TelID 1 counter not 0; total above the longest message */
    LATHEPETAL_NOT_LISTED = 17,          /* look-up: not listed, or not yet again after an NCE in OK */
    LATHEPETAL_NOT_OK = 18,              /* look-up: the state is not OK */
    LATHEPETAL_ROWS_NOT_RISING = 20,     /* two lists of rows: the positions of one do not rise */
    LATHEPETAL_NO_ROOM_FOR_DIFFERENCES = 21 /* two lists of rows: lent room shorter than all their differences */
};

/* The state of a picture. */
enum lathepetal_state {
    LATHEPETAL_OFF = 0,   /* the ring does not run */
    LATHEPETAL_NOTOK = 1, /* the ring is being scanned, and look-ups are refused 18 */
    LATHEPETAL_OK = 2     /* look-ups are answered; after an NCE in OK the units are asked again meanwhile */
};

/* The status of an entry. */
enum lathepetal_status {
    LATHEPETAL_WAITING = 0, /* asked, and no answer yet */
    LATHEPETAL_SETTING = 1, /* a renumbering is sent */
    LATHEPETAL_LISTED = 2,  /* registered */
    LATHEPETAL_SILENT = 3,  /* did not answer */
    LATHEPETAL_IGNORED = 4  /* ignored, with the address that caused it */
};

/* The kind of a difference. */
enum lathepetal_difference {
    LATHEPETAL_POSITION_GONE = 1,
    LATHEPETAL_POSITION_NEW = 2,    /* with its address */
    LATHEPETAL_ADDRESS_CHANGED = 3, /* to the address of the second list */
    LATHEPETAL_PAIR_GONE = 4,
    LATHEPETAL_PAIR_NEW = 5
};

/* The entry of one unit. Address and pairs count while it is SETTING or LISTED, the address alone while it is IGNORED, place and tries
 * while it is SETTING; else address, count, place and tries are 0. What stands in the arrays behind the count means nothing. */
struct lathepetal_entry {
    uint16_t address; /* logical node address */
    uint8_t status;   /* enum lathepetal_status */
    uint8_t bad;      /* bad announcements */
    uint8_t silences;
    uint8_t place;    /* renumbering: the pair at hand, from 0, and its tries */
    uint8_t tries;
    uint8_t count;    /* how many pairs: the first of each array below */
    uint8_t blocks[LATHEPETAL_MAX_PAIRS];
    uint8_t numbers[LATHEPETAL_MAX_PAIRS];
};

/* The ring picture. Position p has entries[p - 1]. */
struct lathepetal_picture {
    uint32_t pass;
    uint8_t state; /* enum lathepetal_state */
    uint8_t delay; /* 1 while a delay runs, else 0 */
    uint8_t size;  /* L */
    uint8_t units; /* how many entries count: N - 1 */
    struct lathepetal_entry entries[LATHEPETAL_MAX_ENTRIES];
};

/* The whole listing, by position and announced order: the first `count` places of each array, and zeros behind them. */
struct lathepetal_flat_listing {
    size_t count;
    uint8_t positions[LATHEPETAL_MAX_LISTED];
    uint16_t addresses[LATHEPETAL_MAX_LISTED];
    uint8_t blocks[LATHEPETAL_MAX_LISTED];
    uint8_t numbers[LATHEPETAL_MAX_LISTED];
};

/* A row of a listing: the entry of one unit, with its position. A comparison looks at the entry's address and pairs alone. */
struct lathepetal_row {
    uint8_t position;
    struct lathepetal_entry entry;
};

/* The listed rows of a picture, by position: the first `count` places, and zeros behind them. */
struct lathepetal_rows {
    size_t count;
    struct lathepetal_row rows[LATHEPETAL_MAX_UNITS];
};

/* The list of a unit: the first `count` places of each array. What stands behind them means nothing. */
struct lathepetal_pairs {
    size_t count;
    uint8_t blocks[LATHEPETAL_MAX_PAIRS];
    uint8_t numbers[LATHEPETAL_MAX_PAIRS];
};

/* The look-up answers that a unit keeps, each pair once, the oldest first: the first `count` places of each array. What stands behind them
 * means nothing. */
struct lathepetal_answers {
    size_t count;
    uint16_t addresses[LATHEPETAL_MAX_ANSWERS];
    uint8_t blocks[LATHEPETAL_MAX_ANSWERS];
    uint8_t numbers[LATHEPETAL_MAX_ANSWERS];
};

/* A unit, as the master sees one. */
struct lathepetal_slave {
    uint32_t pass;    /* of the last order that it read; 0 at first */
    uint16_t address; /* logical node address */
    uint8_t position; /* where it sits */
    struct lathepetal_pairs pairs;
    struct lathepetal_answers known;
};

/* What is remembered between the telegrams of a message. */
struct lathepetal_join_state {
    uint32_t open; /* 0 where no message is open */
    uint32_t msg_id;
    uint32_t counter;
    uint32_t length;
};

struct lathepetal_fresh_outcome {
    uint8_t number;
    struct lathepetal_picture picture;
};

struct lathepetal_record_outcome {
    uint8_t number;
    size_t length; /* how many bytes of orders stand at the start of `out` */
    struct lathepetal_picture picture;
};

struct lathepetal_look_up_outcome {
    uint8_t number;
    uint8_t position;
    uint16_t address;
};

struct lathepetal_compare_outcome {
    uint8_t number;
    size_t length; /* how many bytes of lines stand at the start of `out` */
};

struct lathepetal_unit_outcome {
    uint8_t number;
    struct lathepetal_slave unit;
};

struct lathepetal_unit_read_outcome {
    uint8_t number;
    size_t length; /* how many bytes the ANSWER has at the start of `out`; 0 where the unit does not answer */
    struct lathepetal_slave unit;
};

struct lathepetal_count_outcome {
    uint8_t number;
    size_t telegrams;
};

struct lathepetal_cut_outcome {
    uint8_t number;
    size_t length; /* how many bytes the telegram has at the start of `buffer` */
};

struct lathepetal_join_outcome {
    uint8_t number;
    uint8_t complete; /* 1 where the message is complete; until then msg_id and length are 0 */
    uint32_t msg_id;
    size_t length; /* how many bytes the message has at the start of `buffer` */
    struct lathepetal_join_state state;
};

/* A fresh picture for L, OFF and with pass 0; or 10, and one for L = 12. */
struct lathepetal_fresh_outcome lathepetal_fresh(size_t l);

/* Takes one record, and writes its orders one behind the other to the start of `out`; or 1 to 9. Numbers are big-endian.
 * A record: 4D 45, kind (1), pass (4), x (1). Kinds: 1 START and 2 NCE (x = N), 3 SHUTDOWN (x = 0), 4 ANSWER (x = position, then
 * address (2), count (1), count pairs), 5 NONE (x = position), 6 DELAY (x = 0). Kinds 1 to 3 have pass 0; the others carry the pass of
 * the order that they answer, an unasked announcement the current one.
 * An order: 4D 4F, kind (1), pass (4). Kinds: 1 ASK + position; 2 SET + position, address (2), block, old, new; 3 OK; 4 NOTOK; 5 NEW and
 * 6 INVALID + count + pairs; 7 WAIT SHORT; 8 WAIT LONG.
 * An NCE in OK keeps OK: every pair that was listed is told INVALID, and the units are asked anew. No order says when all have answered;
 * it is so where no entry is WAITING or SETTING. */
struct lathepetal_record_outcome lathepetal_record(struct lathepetal_picture picture, const uint8_t *bytes, size_t length, uint8_t *out,
                                                   size_t room);

/* The whole listing; it is empty while OFF. */
struct lathepetal_flat_listing lathepetal_listing(struct lathepetal_picture picture);

/* Where a pair is listed; or 18, or 17. */
struct lathepetal_look_up_outcome lathepetal_look_up(struct lathepetal_picture picture, uint8_t block, uint8_t number);

/* The rows that are LISTED or SETTING, each with its entry: of a picture that the box handed out as it is, and none while OFF; of any other
 * a count above LATHEPETAL_MAX_PAIRS is handed out as that. */
struct lathepetal_rows lathepetal_listed_rows(struct lathepetal_picture picture);

/* Writes the differences from the first list of rows to the second to the start of `out`, LATHEPETAL_LINE_SIZE bytes each; or 2, 20 or 21.
 * A line: kind (enum lathepetal_difference), position, address (2, big-endian; kinds 2 and 3), block, number (kinds 4 and 5); what a kind
 * does not use is 0. Lines come by position, then by kind, then as announced. Pairs are compared as sets. The pairs of a position that is
 * gone get no lines, those of a new one do. `firsts` and `seconds` are numbers of rows. */
struct lathepetal_compare_outcome lathepetal_compare(const struct lathepetal_row *first, size_t firsts, const struct lathepetal_row *second,
                                                     size_t seconds, uint8_t *out, size_t room);

/* A unit with the pairs that stand in `pairs`, two bytes each, block and number; or 2, and one with none. Position, address and pairs may
 * be any; a master reads the ANSWER of a unit that has block 00, 01 or FF as malformed. */
struct lathepetal_unit_outcome lathepetal_unit(uint8_t position, uint16_t address, const uint8_t *pairs, size_t length);

/* Reads one order as lathepetal_record writes them, and writes the ANSWER that it asks for to the start of `out`; or 1 or 2. NOTOK and any
 * order of another pass than the last one empty the kept answers; INVALID drops those that it names. An ASK for the unit's position is
 * answered, and so is a SET for its position and address, which renumbers the unit's first pair of that block with the old number, if no
 * other pair of that block has the new. */
struct lathepetal_unit_read_outcome lathepetal_unit_read(struct lathepetal_slave unit, const uint8_t *order, size_t length, uint8_t *out,
                                                         size_t room);

/* The unit after a look-up of this pair gave this answer, which is kept as the newest one; a refusal hands back the very unit. */
struct lathepetal_slave lathepetal_unit_learn(struct lathepetal_slave unit, uint8_t block, uint8_t number,
                                              struct lathepetal_look_up_outcome answer);

/* How many telegrams a message has; or 10 or 11. */
struct lathepetal_count_outcome lathepetal_count(size_t l, const uint8_t *payload, size_t length);

/* Writes telegram `number` of a message, from 1, to the start of `buffer`; or 10 to 13. */
struct lathepetal_cut_outcome lathepetal_cut(size_t l, uint32_t msg_id, const uint8_t *payload, size_t length, size_t number,
                                             uint8_t *buffer, size_t room);

/* A join state with no message open. */
struct lathepetal_join_state lathepetal_join_fresh(void);

/* Takes one telegram of a message into `buffer`, which has at least LATHEPETAL_MAX_PAYLOAD bytes; or 10, 13, 14, 15 or 16. */
struct lathepetal_join_outcome lathepetal_join(struct lathepetal_join_state state, size_t l, uint8_t *buffer, size_t room,
                                               const uint8_t *telegram, size_t length);

/* The layout that the archive has, by the sizes above: an array of length -1 is an error. */
#define LATHEPETAL_ASSERT(name, holds) typedef char lathepetal_assert_##name[(holds) ? 1 : -1]
#define LATHEPETAL_SIZE(type, size) LATHEPETAL_ASSERT(size_of_##type, sizeof(struct lathepetal_##type) == (size))
#define LATHEPETAL_PLACE(type, field, at) \
    LATHEPETAL_ASSERT(place_of_##type##_##field, offsetof(struct lathepetal_##type, field) == (at))

LATHEPETAL_ASSERT(size_of_size_t, sizeof(size_t) == 8);
LATHEPETAL_SIZE(entry, 8 + 2 * LATHEPETAL_MAX_PAIRS);
LATHEPETAL_PLACE(entry, status, 2);
LATHEPETAL_PLACE(entry, bad, 3);
LATHEPETAL_PLACE(entry, silences, 4);
LATHEPETAL_PLACE(entry, place, 5);
LATHEPETAL_PLACE(entry, tries, 6);
LATHEPETAL_PLACE(entry, count, 7);
LATHEPETAL_PLACE(entry, blocks, 8);
LATHEPETAL_PLACE(entry, numbers, 8 + LATHEPETAL_MAX_PAIRS);
LATHEPETAL_SIZE(picture, 8 + LATHEPETAL_MAX_UNITS * (8 + 2 * LATHEPETAL_MAX_PAIRS));
LATHEPETAL_PLACE(picture, state, 4);
LATHEPETAL_PLACE(picture, delay, 5);
LATHEPETAL_PLACE(picture, size, 6);
LATHEPETAL_PLACE(picture, units, 7);
LATHEPETAL_PLACE(picture, entries, 8);
LATHEPETAL_SIZE(row, 2 + sizeof(struct lathepetal_entry));
LATHEPETAL_PLACE(row, entry, 2);
LATHEPETAL_SIZE(rows, 8 + LATHEPETAL_MAX_UNITS * sizeof(struct lathepetal_row) + 2);
LATHEPETAL_PLACE(rows, rows, 8);
LATHEPETAL_SIZE(compare_outcome, 16);
LATHEPETAL_PLACE(compare_outcome, length, 8);
LATHEPETAL_SIZE(flat_listing, 8 + 5 * LATHEPETAL_MAX_LISTED);
LATHEPETAL_PLACE(flat_listing, positions, 8);
LATHEPETAL_PLACE(flat_listing, addresses, 8 + LATHEPETAL_MAX_LISTED);
LATHEPETAL_PLACE(flat_listing, blocks, 8 + 3 * LATHEPETAL_MAX_LISTED);
LATHEPETAL_PLACE(flat_listing, numbers, 8 + 4 * LATHEPETAL_MAX_LISTED);
LATHEPETAL_SIZE(pairs, 8 + 2 * LATHEPETAL_MAX_PAIRS);
LATHEPETAL_PLACE(pairs, blocks, 8);
LATHEPETAL_PLACE(pairs, numbers, 8 + LATHEPETAL_MAX_PAIRS);
LATHEPETAL_SIZE(answers, 8 + 4 * LATHEPETAL_MAX_ANSWERS);
LATHEPETAL_PLACE(answers, addresses, 8);
LATHEPETAL_PLACE(answers, blocks, 8 + 2 * LATHEPETAL_MAX_ANSWERS);
LATHEPETAL_PLACE(answers, numbers, 8 + 3 * LATHEPETAL_MAX_ANSWERS);
LATHEPETAL_SIZE(slave, 8 + sizeof(struct lathepetal_pairs) + sizeof(struct lathepetal_answers));
LATHEPETAL_PLACE(slave, address, 4);
LATHEPETAL_PLACE(slave, position, 6);
LATHEPETAL_PLACE(slave, pairs, 8);
LATHEPETAL_PLACE(slave, known, 8 + sizeof(struct lathepetal_pairs));
LATHEPETAL_SIZE(unit_outcome, 8 + sizeof(struct lathepetal_slave));
LATHEPETAL_PLACE(unit_outcome, unit, 8);
LATHEPETAL_SIZE(unit_read_outcome, 16 + sizeof(struct lathepetal_slave));
LATHEPETAL_PLACE(unit_read_outcome, length, 8);
LATHEPETAL_PLACE(unit_read_outcome, unit, 16);
LATHEPETAL_SIZE(join_state, 16);
LATHEPETAL_PLACE(join_state, msg_id, 4);
LATHEPETAL_PLACE(join_state, counter, 8);
LATHEPETAL_PLACE(join_state, length, 12);
LATHEPETAL_SIZE(fresh_outcome, 4 + sizeof(struct lathepetal_picture));
LATHEPETAL_PLACE(fresh_outcome, picture, 4);
LATHEPETAL_SIZE(record_outcome, 16 + sizeof(struct lathepetal_picture));
LATHEPETAL_PLACE(record_outcome, length, 8);
LATHEPETAL_PLACE(record_outcome, picture, 16);
LATHEPETAL_SIZE(look_up_outcome, 4);
LATHEPETAL_PLACE(look_up_outcome, position, 1);
LATHEPETAL_PLACE(look_up_outcome, address, 2);
LATHEPETAL_SIZE(count_outcome, 16);
LATHEPETAL_PLACE(count_outcome, telegrams, 8);
LATHEPETAL_SIZE(cut_outcome, 16);
LATHEPETAL_PLACE(cut_outcome, length, 8);
LATHEPETAL_SIZE(join_outcome, 32);
LATHEPETAL_PLACE(join_outcome, complete, 1);
LATHEPETAL_PLACE(join_outcome, msg_id, 4);
LATHEPETAL_PLACE(join_outcome, length, 8);
LATHEPETAL_PLACE(join_outcome, state, 16);

#undef LATHEPETAL_ASSERT
#undef LATHEPETAL_SIZE
#undef LATHEPETAL_PLACE

#ifdef __cplusplus
}
#endif

#endif
