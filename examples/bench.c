/* One master and one unit on the bench, in one program: every order that the master writes is read by the unit, and the unit's answers go
 * to the master. The unit's number is taken, so that it is renumbered; it looks another unit up, and forgets it when the master says so.
 * Ends with status 1 where anything is not as expected. */
#include <stdio.h>
#include <stdlib.h>
#include <string.h>

#include "lathepetal.h"

static void expect(int holds, const char *what)
{
    if (!holds) {
        fprintf(stderr, "not as expected: %s\n", what);
        exit(1);
    }
}

static void print_bytes(const char *who, const uint8_t *bytes, size_t length)
{
    printf("%s ", who);
    for (size_t i = 0; i < length; i++)
        printf("%02X", bytes[i]);
    printf("\n");
}

enum { HEAD = 7, ASK = 1, SET = 2, NEW = 5, INVALID = 6 };

/* The length of the order that stands at `order`. */
static size_t order_length(const uint8_t *order)
{
    switch (order[2]) {
    case ASK:
        return HEAD + 1;
    case SET:
        return HEAD + 6;
    case NEW:
    case INVALID:
        return HEAD + 1 + 2 * (size_t)order[HEAD];
    default:
        return HEAD;
    }
}

struct bench {
    struct lathepetal_picture master;
    struct lathepetal_slave unit;
};

/* While the master is OK, it lists every answer that the unit keeps, with that address. */
static void expect_listed(const struct bench *bench)
{
    const struct lathepetal_answers *known = &bench->unit.known;

    for (size_t i = 0; bench->master.state == LATHEPETAL_OK && i < known->count; i++) {
        struct lathepetal_look_up_outcome found = lathepetal_look_up(bench->master, known->blocks[i], known->numbers[i]);
        expect(found.number == LATHEPETAL_DONE && found.address == known->addresses[i], "an answer that the unit keeps");
    }
}

/* An ANSWER of the unit; no bytes where it has none. */
struct answer {
    size_t length;
    uint8_t bytes[LATHEPETAL_MIN_ANSWER_ROOM];
};

/* A record goes to the master and each of its orders to the unit; what the unit answers comes back. */
static struct answer offer(struct bench *bench, const uint8_t *record, size_t length)
{
    uint8_t orders[LATHEPETAL_MIN_ROOM];
    struct answer answer = {0};

    print_bytes(">", record, length);
    struct lathepetal_record_outcome taken = lathepetal_record(bench->master, record, length, orders, sizeof orders);
    expect(taken.number == LATHEPETAL_DONE, "the number of a record");
    bench->master = taken.picture;
    for (size_t at = 0; at < taken.length; at += order_length(orders + at)) {
        size_t order = order_length(orders + at);
        print_bytes("<", orders + at, order);
        struct lathepetal_unit_read_outcome read = lathepetal_unit_read(bench->unit, orders + at, order, answer.bytes, sizeof answer.bytes);
        expect(read.number == LATHEPETAL_DONE, "the number of an order");
        bench->unit = read.unit;
        if (read.length > 0)
            answer.length = read.length;
    }
    expect_listed(bench);
    return answer;
}

/* The unit asks the master for a pair, and learns what that says. */
static void look_up(struct bench *bench, uint8_t block, uint8_t number)
{
    struct lathepetal_look_up_outcome found = lathepetal_look_up(bench->master, block, number);

    bench->unit = lathepetal_unit_learn(bench->unit, block, number, found);
    printf("%02X.%02X: number %d, address %04X; the unit keeps %zu\n", block, number, found.number, found.address, bench->unit.known.count);
    expect_listed(bench);
}

int main(void)
{
    static const uint8_t PAIRS[] = {0x22, 0x01};
    static const uint8_t START_3[] = {0x4D, 0x45, 1, 0, 0, 0, 0, 3};
    static const uint8_t OTHER[] = {0x4D, 0x45, 4, 0, 0, 0, 1, 1, 0x01, 0x01, 1, 0x22, 0x01};
    static const uint8_t CHANGED[] = {0x4D, 0x45, 4, 0, 0, 0, 1, 1, 0x01, 0x01, 1, 0x31, 0x01};
    static const uint8_t CUT_OFF[] = {0x4D, 0x4F, 3, 0, 0, 0};
    struct answer answer;

    struct lathepetal_unit_outcome made = lathepetal_unit(2, 0x0102, PAIRS, sizeof PAIRS - 1);
    expect(made.number == LATHEPETAL_RECORD_MALFORMED && made.unit.pairs.count == 0, "a unit of half a pair");
    made = lathepetal_unit(2, 0x0102, PAIRS, sizeof PAIRS);
    expect(made.number == LATHEPETAL_DONE && made.unit.pairs.count == 1, "a unit");
    struct bench bench = {lathepetal_fresh(LATHEPETAL_MIN_SIZE).picture, made.unit};

    /* Both units are asked. The other one is heard first, so that this one is renumbered. */
    answer = offer(&bench, START_3, sizeof START_3);
    offer(&bench, OTHER, sizeof OTHER);
    answer = offer(&bench, answer.bytes, answer.length);
    offer(&bench, answer.bytes, answer.length);
    expect(bench.master.state == LATHEPETAL_OK && bench.unit.pairs.numbers[0] == 0x02, "OK, and the unit is renumbered");

    /* A look-up that is answered is kept, one that is refused is not; INVALID drops it. */
    look_up(&bench, 0x22, 0x01);
    look_up(&bench, 0x31, 0x01);
    expect(bench.unit.known.count == 1, "one answer");
    offer(&bench, CHANGED, sizeof CHANGED);
    expect(bench.unit.known.count == 0, "no answer");

    /* Whatever comes in, the unit reads it or refuses it, and a refusal changes nothing. */
    struct lathepetal_unit_read_outcome refused = lathepetal_unit_read(bench.unit, CUT_OFF, sizeof CUT_OFF, answer.bytes, sizeof answer.bytes);
    expect(refused.number == LATHEPETAL_RECORD_MALFORMED && refused.length == 0, "an order that is cut off");
    refused = lathepetal_unit_read(bench.unit, CUT_OFF, sizeof CUT_OFF, answer.bytes, sizeof answer.bytes - 1);
    expect(refused.number == LATHEPETAL_ORDER_ROOM_TOO_SHORT && refused.length == 0, "room below the least");
    return 0;
}
