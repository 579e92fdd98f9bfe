/* One bench session, whole: a ring of three is started, a clashing instance number is renumbered, and the ring gets to OK. Then the
 * listing, two look-ups, a record that is refused, a re-plug in which the ring stays OK, and a message cut into telegrams and joined
 * again.
 * Ends with status 1 where anything is not as expected. */
#include <stdio.h>
#include <stdlib.h>
#include <string.h>

#include "lathepetal.h"

#define L 12
#define MSG_ID 0x2202100C

static void expect(int holds, const char *what)
{
    if (!holds) {
        fprintf(stderr, "not as expected: %s\n", what);
        exit(1);
    }
}

/* `length` bytes in hex. */
static void print_bytes(const uint8_t *bytes, size_t length)
{
    for (size_t i = 0; i < length; i++)
        printf("%02X", bytes[i]);
}

/* Bytes in groups of the widths given, which end with 0; what is left behind them is the last group. */
static void print_groups(const uint8_t *bytes, size_t length, const size_t *widths)
{
    size_t at = 0;
    while (at < length) {
        size_t width = *widths != 0 && *widths < length - at ? *widths++ : length - at;
        if (at != 0)
            printf(" ");
        print_bytes(bytes + at, width);
        at += width;
    }
}

/* mark, kind, pass, x, address, count, pairs */
static const size_t RECORD_GROUPS[] = {2, 1, 4, 1, 2, 1, 0};
/* mark, kind, pass, position, address, block, old, new */
static const size_t SET_GROUPS[] = {2, 1, 4, 1, 2, 1, 1, 1, 0};
/* mark, kind, pass, position or count, pairs */
static const size_t ORDER_GROUPS[] = {2, 1, 4, 1, 0};
/* MsgID, TelID and TelLen, counter, payload */
static const size_t TELEGRAM_GROUPS[] = {4, 2, 1, 0};

enum { HEAD = 7, ASK = 1, SET = 2, NEW = 5, INVALID = 6 };

/* The length of the order that stands at `order`. */
static size_t order_length(const uint8_t *order)
{
    switch (order[2]) {
    case ASK:
        return HEAD + 1;
    case SET:
        return HEAD + 6;
    case NEW:
    case INVALID:
        return HEAD + 1 + 2 * (size_t)order[HEAD];
    default:
        return HEAD;
    }
}

/* Hands one record to the box, prints what it gives, and holds that to the number and the orders expected. */
static void play(struct lathepetal_picture *picture, const uint8_t *bytes, size_t length, uint8_t number, const uint8_t *orders,
                 size_t orders_length)
{
    uint8_t out[LATHEPETAL_MIN_ROOM];
    struct lathepetal_record_outcome outcome = lathepetal_record(*picture, bytes, length, out, sizeof out);

    print_groups(bytes, length, RECORD_GROUPS);
    printf("\n");
    expect(outcome.number == number, "the number of a record");
    expect(outcome.length == orders_length, "the length of the orders");
    expect(orders_length == 0 || memcmp(out, orders, orders_length) == 0, "the orders");
    if (outcome.number != LATHEPETAL_DONE) {
        expect(memcmp(&outcome.picture, picture, sizeof *picture) == 0, "the picture after a refusal");
        printf("  is refused %d\n", outcome.number);
        return;
    }
    if (outcome.length == 0)
        printf("  gives nothing\n");
    for (size_t at = 0; at < outcome.length; at += order_length(out + at)) {
        printf("  gives ");
        print_groups(out + at, order_length(out + at), out[at + 2] == SET ? SET_GROUPS : ORDER_GROUPS);
        printf("\n");
    }
    *picture = outcome.picture;
}

static void look_up(struct lathepetal_picture picture, uint8_t block, uint8_t instance, struct lathepetal_look_up_outcome expected)
{
    struct lathepetal_look_up_outcome found = lathepetal_look_up(picture, block, instance);

    expect(found.number == expected.number, "the number of a look-up");
    expect(found.position == expected.position && found.address == expected.address, "what a look-up finds");
    if (found.number != LATHEPETAL_DONE)
        printf("%02X.%02X is refused %d\n", block, instance, found.number);
    else
        printf("%02X.%02X is at position %d, address %04X\n", block, instance, found.position, found.address);
}

static void ring(void)
{
    static const uint8_t START_3[] = {0x4D, 0x45, 1, 0, 0, 0, 0, 3};
    static const uint8_t ASK_1_2[] = {0x4D, 0x4F, 1, 0, 0, 0, 1, 1, 0x4D, 0x4F, 1, 0, 0, 0, 1, 2};
    static const uint8_t FIRST[] = {0x4D, 0x45, 4, 0, 0, 0, 1, 1, 0x01, 0x01, 1, 0x22, 0x01};
    static const uint8_t SECOND[] = {0x4D, 0x45, 4, 0, 0, 0, 1, 2, 0x01, 0x02, 1, 0x22, 0x01};
    static const uint8_t SET_2[] = {0x4D, 0x4F, 2, 0, 0, 0, 1, 2, 0x01, 0x02, 0x22, 0x01, 0x02};
    static const uint8_t RENUMBERED[] = {0x4D, 0x45, 4, 0, 0, 0, 1, 2, 0x01, 0x02, 1, 0x22, 0x02};
    static const uint8_t RING_OK[] = {0x4D, 0x4F, 3, 0, 0, 0, 1};
    static const uint8_t OLD_NONE[] = {0x4D, 0x45, 5, 0, 0, 0, 0, 1};
    static const uint8_t CHANGE_3[] = {0x4D, 0x45, 2, 0, 0, 0, 0, 3};
    static const uint8_t ASK_AND_INVALID[] = {0x4D, 0x4F, 1, 0, 0, 0, 2, 1, 0x4D, 0x4F, 1, 0, 0, 0, 2, 2,
                                              0x4D, 0x4F, 6, 0, 0, 0, 2, 2, 0x22, 0x01, 0x22, 0x02};
    static const uint8_t FIRST_AGAIN[] = {0x4D, 0x45, 4, 0, 0, 0, 2, 1, 0x01, 0x01, 1, 0x22, 0x01};
    static const uint8_t NEW_1[] = {0x4D, 0x4F, 5, 0, 0, 0, 2, 1, 0x22, 0x01};
    static const struct lathepetal_look_up_outcome AT_2 = {LATHEPETAL_DONE, 2, 0x0102};
    static const struct lathepetal_look_up_outcome NOWHERE = {LATHEPETAL_NOT_LISTED, 0, 0};

    struct lathepetal_fresh_outcome made = lathepetal_fresh(L);
    expect(made.number == LATHEPETAL_DONE, "the number of a fresh picture");
    struct lathepetal_picture picture = made.picture;

    play(&picture, START_3, sizeof START_3, LATHEPETAL_DONE, ASK_1_2, sizeof ASK_1_2);
    play(&picture, FIRST, sizeof FIRST, LATHEPETAL_DONE, NULL, 0);
    play(&picture, SECOND, sizeof SECOND, LATHEPETAL_DONE, SET_2, sizeof SET_2);
    play(&picture, RENUMBERED, sizeof RENUMBERED, LATHEPETAL_DONE, RING_OK, sizeof RING_OK);
    expect(picture.state == LATHEPETAL_OK, "the state");

    struct lathepetal_flat_listing listing = lathepetal_listing(picture);
    expect(listing.count == 2, "how many pairs are listed");
    printf("%zu pairs are listed\n", listing.count);
    for (size_t i = 0; i < listing.count; i++)
        printf("  %02X.%02X at position %d, address %04X\n", listing.blocks[i], listing.numbers[i], listing.positions[i],
               listing.addresses[i]);

    look_up(picture, 0x22, 0x02, AT_2);
    look_up(picture, 0x22, 0x03, NOWHERE);
    play(&picture, OLD_NONE, sizeof OLD_NONE, LATHEPETAL_WRONG_PASS, NULL, 0);

    play(&picture, CHANGE_3, sizeof CHANGE_3, LATHEPETAL_DONE, ASK_AND_INVALID, sizeof ASK_AND_INVALID);
    play(&picture, FIRST_AGAIN, sizeof FIRST_AGAIN, LATHEPETAL_DONE, NEW_1, sizeof NEW_1);
    expect(picture.state == LATHEPETAL_OK, "the state after a re-plug");
    look_up(picture, 0x22, 0x02, NOWHERE);
}

static void telegrams(void)
{
    static uint8_t buffer[LATHEPETAL_MAX_PAYLOAD];
    uint8_t payload[20];
    for (size_t i = 0; i < sizeof payload; i++)
        payload[i] = (uint8_t)(0xA0 + i);

    struct lathepetal_count_outcome count = lathepetal_count(L, payload, sizeof payload);
    expect(count.number == LATHEPETAL_DONE && count.telegrams == 2, "how many telegrams");
    printf("%zu bytes are %zu telegrams\n", sizeof payload, count.telegrams);

    struct lathepetal_join_state state = lathepetal_join_fresh();
    for (size_t number = 1; number <= count.telegrams; number++) {
        uint8_t telegram[LATHEPETAL_MAX_TELEGRAM];
        struct lathepetal_cut_outcome cut = lathepetal_cut(L, MSG_ID, payload, sizeof payload, number, telegram, sizeof telegram);
        expect(cut.number == LATHEPETAL_DONE, "the number of a cut");
        printf("  ");
        print_groups(telegram, cut.length, TELEGRAM_GROUPS);
        printf("\n");

        struct lathepetal_join_outcome joined = lathepetal_join(state, L, buffer, sizeof buffer, telegram, cut.length);
        expect(joined.number == LATHEPETAL_DONE, "the number of a join");
        expect(joined.complete == (number == count.telegrams), "whether the message is complete");
        if (joined.complete) {
            expect(joined.msg_id == MSG_ID, "the MsgID");
            expect(joined.length == sizeof payload && memcmp(buffer, payload, sizeof payload) == 0, "the message");
            printf("joined: MsgID %08X, %zu bytes, as they were\n", (unsigned)joined.msg_id, joined.length);
        }
        state = joined.state;
    }
    expect(state.open == 0, "the state behind a complete message");
}

int main(void)
{
    ring();
    telegrams();
    return 0;
}
