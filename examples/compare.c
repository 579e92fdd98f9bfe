/* Two listings of one ring compared, in one program: before a repair and after it. The rows come from the pictures; what differs is printed,
 * a line for each. Ends with status 1 where anything is not as expected. */
#include <stdio.h>
#include <stdlib.h>

#include "lathepetal.h"

static void expect(int holds, const char *what)
{
    if (!holds) {
        fprintf(stderr, "not as expected: %s\n", what);
        exit(1);
    }
}

/* The picture after one record more, which is taken. */
static struct lathepetal_picture take(struct lathepetal_picture picture, const uint8_t *record, size_t length)
{
    uint8_t orders[LATHEPETAL_MIN_ROOM];
    struct lathepetal_record_outcome taken = lathepetal_record(picture, record, length, orders, sizeof orders);

    expect(taken.number == LATHEPETAL_DONE, "the number of a record");
    return taken.picture;
}

/* A ring of one unit at position 1, which announces one block with this number. */
static struct lathepetal_rows day(uint8_t number)
{
    static const uint8_t START_2[] = {0x4D, 0x45, 1, 0, 0, 0, 0, 2};
    uint8_t answer[] = {0x4D, 0x45, 4, 0, 0, 0, 1, 1, 0x01, 0x01, 1, 0x22, number};
    struct lathepetal_picture picture = lathepetal_fresh(LATHEPETAL_MIN_SIZE).picture;

    picture = take(picture, START_2, sizeof START_2);
    picture = take(picture, answer, sizeof answer);
    return lathepetal_listed_rows(picture);
}

static void print_lines(const uint8_t *lines, size_t length)
{
    static const char *const KINDS[] = {"", "position gone", "position new", "address changed", "pair gone", "pair new"};

    for (const uint8_t *line = lines; line < lines + length; line += LATHEPETAL_LINE_SIZE)
        printf("position %d: %s, address %02X%02X, pair %02X.%02X\n", line[1], KINDS[line[0]], line[2], line[3], line[4], line[5]);
}

int main(void)
{
    static uint8_t lines[LATHEPETAL_DIFFERENCES_ROOM];
    struct lathepetal_rows before = day(0x01);
    struct lathepetal_rows after = day(0x02);
    struct lathepetal_compare_outcome compared;

    expect(before.count == 1 && before.rows[0].position == 1 && before.rows[0].entry.address == 0x0101, "the rows of a picture");
    compared = lathepetal_compare(before.rows, before.count, before.rows, before.count, lines, sizeof lines);
    expect(compared.number == LATHEPETAL_DONE && compared.length == 0, "a listing and itself");

    /* The unit has come back with another number. */
    compared = lathepetal_compare(before.rows, before.count, after.rows, after.count, lines, sizeof lines);
    expect(compared.number == LATHEPETAL_DONE && compared.length == 2 * LATHEPETAL_LINE_SIZE, "one pair gone and one new");
    print_lines(lines, compared.length);

    /* A unit that has moved, as rows made by hand. */
    after.rows[0].position = 3;
    compared = lathepetal_compare(before.rows, before.count, after.rows, after.count, lines, sizeof lines);
    expect(compared.number == LATHEPETAL_DONE && lines[0] == LATHEPETAL_POSITION_GONE, "a position gone");
    print_lines(lines, compared.length);

    /* Refusals write nothing and give length 0. */
    compared = lathepetal_compare(before.rows, before.count, after.rows, after.count, lines, compared.length - 1);
    expect(compared.number == LATHEPETAL_NO_ROOM_FOR_DIFFERENCES && compared.length == 0, "room that is a byte short");
    after.rows[1] = after.rows[0];
    compared = lathepetal_compare(before.rows, before.count, after.rows, 2, lines, sizeof lines);
    expect(compared.number == LATHEPETAL_ROWS_NOT_RISING && compared.length == 0, "two rows at one position");
    after.rows[1].position = LATHEPETAL_MAX_UNITS + 1;
    compared = lathepetal_compare(before.rows, before.count, after.rows, 2, lines, sizeof lines);
    expect(compared.number == LATHEPETAL_RECORD_MALFORMED && compared.length == 0, "a position that no unit has");
    return 0;
}
