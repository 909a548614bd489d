/* Calls of the library from C: answers and refusals, names, empty slices, sizes, threads. */
#define _XOPEN_SOURCE 700
#undef NDEBUG
#include <assert.h>
#include <pthread.h>
#include <stdio.h>
#include <string.h>
#include <strip.h>
#include <strip.h>

/* How many elements an array has. */
#define COUNT(array) (sizeof(array) / sizeof(array)[0])

/* That an answer is this refusal, in one number and in its three parts. */
#define REFUSED(answer, number, offset)                                                            \
    do {                                                                                           \
        uint64_t given = (answer);                                                                 \
        assert(given == (number) * UINT64_C(4294967296) + (offset));                               \
        assert(strip_refusal(given) == (number) && strip_value(given) == (offset));                \
        assert(strip_second(given) == 0);                                                          \
    } while (0)

/* That drawing a bad sheet, telling its minimum width, and telling its totals at no width and at
 * more widths than there may be are refused alike. */
#define BAD_SHEET(sheet, number, offset)                                                           \
    do {                                                                                           \
        REFUSED(draw(sheet, COUNT(sheet)), number, offset);                                        \
        REFUSED(strip_narrowest(sheet, COUNT(sheet)), number, offset);                             \
        REFUSED(strip_totals(sheet, COUNT(sheet), NULL, 0, NULL, 0), number, offset);              \
        REFUSED(totals(sheet, COUNT(sheet), too_many, COUNT(too_many)), number, offset);           \
    } while (0)

/* That an answer is this width and total, in one number and in its three parts. */
#define NARROWEST(answer, width, total)                                                            \
    do {                                                                                           \
        uint64_t given = (answer);                                                                 \
        assert(given == (width) * UINT64_C(281474976710656) + (total));                            \
        assert(strip_second(given) == (width) && strip_value(given) == (total));                   \
        assert(strip_refusal(given) == STRIP_OK);                                                  \
    } while (0)

/* Document 01's first sheet, in bytes and in numbers, with its drawing and its list. */
static const uint8_t first[] = {0x53, 0x50, 0x31, 5, 2, 2, 1, 0, 1, 2, 1, 1, 1, 0, 1, 2, 1, 0};
static const uint16_t first_numbers[] = {5, 2, 2, 1, 0, 1, 2, 1, 1, 1, 0, 1, 2, 1, 0};
static const uint16_t first_places[] = {0, 1, 0};
static const int32_t first_list[] = {1, -1, 0, 1, 0, 0, 0, 0};

/* The coordinate file of that drawing, in bytes and in numbers. */
static const uint8_t first_file[] = {0x53, 0x44, 0x31, 2, 2, 0, 1, 1, 0};
static const uint16_t first_drawing[] = {2, 2, 0, 1, 1, 0};

/* More widths than there may be, of which the first is too great. */
static const uint32_t too_many[STRIP_MAX_WIDTHS + 1] = {4096};

/* Room for the answers to any sheet and any coordinate file, and for more totals than widths. */
struct room {
    uint8_t sheet[STRIP_MAX_SHEET_BYTES];
    uint16_t numbers[STRIP_MAX_NUMBERS];
    uint16_t places[STRIP_MAX_PLACES];
    int32_t list[STRIP_MAX_LIST];
    uint8_t file[STRIP_MAX_DRAWING_BYTES];
    uint16_t drawing[STRIP_MAX_DRAWING_NUMBERS];
    uint32_t totals[STRIP_MAX_WIDTHS + 2];
};

/* The room that the calls write to, and what it is before a call. */
static struct room room, painted;

/* Paints the room. */
static void paint(void) {
    memset(&room, 0xa5, sizeof room);
    memset(&painted, 0xa5, sizeof painted);
}

/* Says whether nothing in the room is written. */
static int untouched(void) {
    return memcmp(&room, &painted, sizeof room) == 0;
}

/* Draws a sheet into the room. */
static uint64_t draw(const uint8_t *sheet, size_t sheet_len) {
    return strip_draw(sheet, sheet_len, room.places, STRIP_MAX_PLACES, room.list, STRIP_MAX_LIST);
}

/* Tells the totals of a sheet into the room. */
static uint64_t totals(const uint8_t *sheet, size_t sheet_len, const uint32_t *widths,
                       size_t widths_len) {
    return strip_totals(sheet, sheet_len, widths, widths_len, room.totals, COUNT(room.totals));
}

/* Reads a coordinate file into the room. */
static uint64_t read_drawing(const uint8_t *file, size_t file_len) {
    return strip_read_drawing(file, file_len, room.drawing, STRIP_MAX_DRAWING_NUMBERS);
}

/* Writes a coordinate file into the room. */
static uint64_t write_drawing(const uint16_t *drawing, size_t drawing_len) {
    return strip_write_drawing(drawing, drawing_len, room.file, STRIP_MAX_DRAWING_BYTES);
}

/* Each function answers the first sheet or its file, and writes no element behind the answer. */
static void answers(void) {
    const uint32_t widths[] = {5, 0};

    paint();
    assert(strip_read(first, COUNT(first), room.numbers, STRIP_MAX_NUMBERS) == 15);
    assert(memcmp(room.numbers, first_numbers, sizeof first_numbers) == 0);
    assert(room.numbers[15] == 0xa5a5);
    assert(strip_write(first_numbers, 15, room.sheet, STRIP_MAX_SHEET_BYTES) == 18);
    assert(memcmp(room.sheet, first, sizeof first) == 0);
    assert(room.sheet[18] == 0xa5);
    assert(draw(first, COUNT(first)) == 1);
    assert(memcmp(room.places, first_places, sizeof first_places) == 0);
    assert(room.places[3] == 0xa5a5);
    assert(room.list[8] == (int32_t)0xa5a5a5a5);
    assert(strip_check(first, COUNT(first), room.places, 3, room.list, 8) == 1);
    assert(strip_check(first, COUNT(first), first_places, 3, first_list, 8) == 1);
    room.places[0] = 1;
    assert(strip_check(first, COUNT(first), room.places, 3, room.list, 8) == 0);
    NARROWEST(strip_narrowest(first, COUNT(first)), 1, 1);
    assert(totals(first, COUNT(first), widths, 2) == 2);
    assert(room.totals[0] == 1 && room.totals[1] == STRIP_NO_TOTAL);
    assert(room.totals[2] == 0xa5a5a5a5);
    assert(read_drawing(first_file, COUNT(first_file)) == 6);
    assert(memcmp(room.drawing, first_drawing, sizeof first_drawing) == 0);
    assert(room.drawing[6] == 0xa5a5);
    assert(write_drawing(first_drawing, 6) == 9);
    assert(memcmp(room.file, first_file, sizeof first_file) == 0);
    assert(room.file[9] == 0xa5);
}

/* Four nodes and three edges, the last two parallel, are drawn there with total 2. The list gets a
 * yes, and a no with 1 of its pull moved to the later parallel edge. */
static void traced(const uint8_t *sheet, size_t length, const uint16_t *places, int32_t *list) {
    assert(draw(sheet, length) == 2);
    assert(memcmp(room.places, places, 4 * sizeof *places) == 0 && room.list[2] == 0);
    assert(strip_check(sheet, length, places, 4, room.list, 11) == 1);
    assert(strip_check(sheet, length, places, 4, list, 11) == 1);
    list[1] -= 1;
    list[2] += 1;
    assert(strip_check(sheet, length, places, 4, list, 11) == 0);
}

/* Parallel edges count once. The first of them carries the pull, free where a later one is
 * straight, and each later one's is 0. */
static void parallel_edges(void) {
    /* document 01's one node over three: an edge to the first, two parallel edges to the third */
    uint8_t sheet[] = {0x53, 0x50, 0x31, 2, 2, 1, 3, 1, 0, 1, 0, 3,
                       1,    1,    1,    0, 1, 1, 3, 0, 1, 1, 3, 0};
    const uint16_t plain_places[] = {0, 0, 1, 2}, straight_places[] = {2, 0, 1, 2};
    int32_t plain_list[] = {-1, 1, 0, 0, 0, 0, 1, 0, 1, 0, 0};
    int32_t straight_list[] = {-1, 2, 0, 0, 1, 1, 2, 0, 2, 0, 0};

    traced(sheet, COUNT(sheet), plain_places, plain_list);
    /* the second of the two is straight */
    sheet[COUNT(sheet) - 1] = 1;
    traced(sheet, COUNT(sheet), straight_places, straight_list);
}

/* The minimum width of a sheet, whatever its own width is, and the least total there. */
static void narrowest(void) {
    const uint8_t one_node[] = {0x53, 0x50, 0x31, 0, 1, 1, 0};
    uint8_t stair[] = {0x53, 0x50, 0x31, 0, 3, 2, 1, 0, 2, 1, 0, 2, 1, 0, 2,
                       1,    2,    1,    0, 2, 2, 1, 0};
    /* two layers of two nodes that are 4,095 apart, and edges between left and right */
    const uint16_t widest[] = {9, 2, 2, 4095, 0, 2, 4095, 4095, 2, 1, 1, 2, 0, 1, 2, 1, 0};
    uint64_t length;

    NARROWEST(strip_narrowest(one_node, COUNT(one_node)), 0, 0);
    for (stair[3] = 0; stair[3] < 5; stair[3]++)
        NARROWEST(strip_narrowest(stair, COUNT(stair)), 1, 2);
    stair[COUNT(stair) - 1] = 1;
    NARROWEST(strip_narrowest(stair, COUNT(stair)), 2, 1);
    length = strip_write(widest, COUNT(widest), room.sheet, STRIP_MAX_SHEET_BYTES);
    NARROWEST(strip_narrowest(room.sheet, length), 4095, 8190);
}

/* Checks the totals of a sheet at widths, in a slice of their count, and in a longer one, of which
 * the rest is kept. */
static void totals_are(const uint8_t *sheet, size_t length, const uint32_t *widths,
                       const uint32_t *expected, size_t count) {
    paint();
    assert(strip_totals(sheet, length, widths, count, room.totals, count) == count);
    assert(memcmp(room.totals, expected, count * sizeof *expected) == 0);
    memset(room.totals, 0xa5, sizeof room.totals);
    assert(totals(sheet, length, widths, count) == count);
    assert(memcmp(room.totals, expected, count * sizeof *expected) == 0);
    memset(room.totals, 0xa5, count * sizeof *expected);
    assert(untouched());
}

/* The totals of a sheet at several widths, in their order, whatever its own width is. */
static void many_widths(void) {
    uint8_t stair[] = {0x53, 0x50, 0x31, 0, 3, 2, 1, 0, 2, 1, 0, 2, 1, 0, 2,
                       1,    2,    1,    0, 2, 2, 1, 0};
    const uint8_t crossing[] = {0x53, 0x50, 0x31, 0xff, 0x1f, 2, 2, 1, 0, 2, 1,
                                0,    2,    1,    1,    2,    1, 1, 2, 1, 1};
    const uint32_t rising[] = {0, 1, 2, 3, 4}, any_order[] = {4095, 0, 1, 4095, 1, 2, 0};
    const uint32_t plain[] = {STRIP_NO_TOTAL, 2, 1, 0, 0};
    const uint32_t plain_any_order[] = {0, STRIP_NO_TOTAL, 2, 0, 2, 1, STRIP_NO_TOTAL};
    const uint32_t straight[] = {STRIP_NO_TOTAL, STRIP_NO_TOTAL, 1, 0, 0};
    const uint32_t none[] = {STRIP_NO_TOTAL, STRIP_NO_TOTAL, STRIP_NO_TOTAL, STRIP_NO_TOTAL,
                             STRIP_NO_TOTAL};

    for (stair[3] = 0; stair[3] < 5; stair[3]++) {
        totals_are(stair, COUNT(stair), rising, plain, 5);
        totals_are(stair, COUNT(stair), any_order, plain_any_order, 7);
        totals_are(stair, COUNT(stair), NULL, plain, 0);
    }
    stair[COUNT(stair) - 1] = 1;
    totals_are(stair, COUNT(stair), rising, straight, 5);
    totals_are(crossing, COUNT(crossing), rising, none, 5);
}

/* Checks that a coordinate file has this number list, and the list this file. */
static void correspond(const uint8_t *file, size_t length, const uint16_t *drawing, size_t count) {
    assert(read_drawing(file, length) == count);
    assert(memcmp(room.drawing, drawing, count * sizeof *drawing) == 0);
    assert(write_drawing(drawing, count) == length);
    assert(memcmp(room.file, file, length) == 0);
}

/* Coordinate files and their lists: the smallest one, places and distances, the greatest place. */
static void coordinate_files(void) {
    const uint8_t smallest[] = {0x53, 0x44, 0x31, 1, 1, 0};
    const uint16_t smallest_drawing[] = {1, 1, 0};
    const uint8_t distances[] = {0x53, 0x44, 0x31, 1, 4, 10, 5, 0x80, 1, 1};
    const uint16_t places[] = {1, 4, 10, 15, 143, 144};
    const uint8_t greatest[] = {0x53, 0x44, 0x31, 2, 2, 0, 0xff, 0x1f, 1, 0xff, 0x1f};
    const uint16_t greatest_drawing[] = {2, 2, 0, 4095, 1, 4095};

    correspond(first_file, COUNT(first_file), first_drawing, COUNT(first_drawing));
    correspond(smallest, COUNT(smallest), smallest_drawing, COUNT(smallest_drawing));
    correspond(distances, COUNT(distances), places, COUNT(places));
    correspond(greatest, COUNT(greatest), greatest_drawing, COUNT(greatest_drawing));
}

/* Document 01's example of each refusal, by name and by number. */
static void refusals(void) {
    const uint8_t ended[] = {0x53, 0x50};
    const uint8_t other[] = {0x53, 0x51, 0x31};
    const uint8_t form[] = {0x53, 0x50, 0x31, 0x80, 0x00};
    const uint8_t outside[] = {0x53, 0x50, 0x31, 0x05, 0x00};
    const uint8_t crossed[] = {0x53, 0x50, 0x31, 0x05, 0x01, 0x02, 0x03, 0x02};
    const uint8_t follows[] = {0x53, 0x50, 0x31, 0x00, 0x01, 0x01, 0x00, 0x00};
    const uint8_t one_node[] = {0x53, 0x50, 0x31, 0x00, 0x01, 0x01, 0x00};
    const uint8_t no_drawing[] = {0x53, 0x50, 0x31, 0x00, 0x01, 0x02, 0x01, 0x00, 0x00};
    const uint8_t no_width[] = {0x53, 0x50, 0x31, 0, 1, 3, 0xff, 0x1f, 0, 0xff, 0x1f, 0, 0};

    paint();
    BAD_SHEET(ended, STRIP_INPUT_ENDED, 2);
    BAD_SHEET(other, STRIP_NOT_A_SHEET, 0);
    BAD_SHEET(form, STRIP_NUMBER_FORM, 3);
    BAD_SHEET(outside, STRIP_OUTSIDE_LIMITS, 4);
    BAD_SHEET(crossed, STRIP_SEPARATIONS_CROSSED, 7);
    BAD_SHEET(follows, STRIP_SOMETHING_FOLLOWS, 7);
    REFUSED(strip_draw(one_node, COUNT(one_node), room.places, 0, room.list, 2),
            STRIP_SLICE_SHORT, 0);
    REFUSED(draw(no_drawing, COUNT(no_drawing)), STRIP_NO_DRAWING, 0);
    REFUSED(strip_narrowest(no_width, COUNT(no_width)), STRIP_NO_WIDTH, 0);
    NARROWEST(strip_narrowest(no_drawing, COUNT(no_drawing)), 1, 0);
    assert(untouched());
    assert(STRIP_OK == 0 && STRIP_INPUT_ENDED == 1 && STRIP_NOT_A_SHEET == 2);
    assert(STRIP_NUMBER_FORM == 3 && STRIP_OUTSIDE_LIMITS == 4 && STRIP_SEPARATIONS_CROSSED == 5);
    assert(STRIP_SOMETHING_FOLLOWS == 6 && STRIP_SLICE_SHORT == 7 && STRIP_NO_DRAWING == 8);
    assert(STRIP_NO_WIDTH == 10 && STRIP_MANY_WIDTHS == 11);
}

/* Each refusal of a list of widths: first for its length, then for the first width that is too
 * great, then for the slice of totals. */
static void width_refusals(void) {
    /* no width is taken by its low 12 or 16 bits, and STRIP_NO_TOTAL is no width */
    const uint32_t too_great[] = {4096, 65535, 65536, 65541, 2147483648, STRIP_NO_TOTAL};
    const uint8_t no_drawing[] = {0x53, 0x50, 0x31, 0x00, 0x01, 0x02, 0x01, 0x00, 0x00};
    uint32_t widths[STRIP_MAX_WIDTHS + 1] = {0};
    size_t length = COUNT(first), i;

    paint();
    REFUSED(totals(first, length, widths, 65), STRIP_MANY_WIDTHS, 0);
    REFUSED(totals(first, length, too_many, 65), STRIP_MANY_WIDTHS, 0);
    REFUSED(strip_totals(first, length, too_many, 65, NULL, 0), STRIP_MANY_WIDTHS, 0);
    for (i = 0; i < COUNT(too_great); i++) {
        REFUSED(totals(first, length, &too_great[i], 1), STRIP_OUTSIDE_LIMITS, 0);
        widths[63] = too_great[i];
        REFUSED(totals(first, length, widths, 64), STRIP_OUTSIDE_LIMITS, 63);
        REFUSED(strip_totals(first, length, widths, 64, NULL, 0), STRIP_OUTSIDE_LIMITS, 63);
        REFUSED(totals(no_drawing, COUNT(no_drawing), widths, 64), STRIP_OUTSIDE_LIMITS, 63);
        REFUSED(totals(first, length, widths, 65), STRIP_MANY_WIDTHS, 0);
    }
    widths[7] = 4096;
    REFUSED(totals(first, length, widths, 64), STRIP_OUTSIDE_LIMITS, 7);
    widths[7] = widths[63] = 4095;
    REFUSED(strip_totals(first, length, widths, 64, room.totals, 63), STRIP_SLICE_SHORT, 0);
    REFUSED(strip_totals(first, length, widths, 1, room.totals, 0), STRIP_SLICE_SHORT, 0);
    assert(untouched());
    assert(strip_totals(first, length, widths, 64, room.totals, 64) == 64);
    for (i = 0; i < 64; i++)
        assert(room.totals[i] == (widths[i] == 4095 ? 1 : STRIP_NO_TOTAL));
    assert(room.totals[64] == 0xa5a5a5a5);
    assert(STRIP_MAX_WIDTHS == 64 && STRIP_NO_TOTAL == UINT32_MAX);
}

/* Each refusal of a coordinate file and of its number list; sheets and files are not mixed up. */
static void file_refusals(void) {
    const uint8_t ended[] = {0x53, 0x44};
    const uint8_t cut_off[] = {0x53, 0x44, 0x31, 1, 2, 0, 0x80};
    const uint8_t form[] = {0x53, 0x44, 0x31, 1, 2, 0, 0x81, 0x00};
    const uint8_t passes[] = {0x53, 0x44, 0x31, 1, 2, 0xff, 0x1f, 1};
    const uint8_t zero[] = {0x53, 0x44, 0x31, 1, 2, 0, 0};
    const uint8_t large[] = {0x53, 0x44, 0x31, 1, 2, 0, 0x80, 0x20};
    const uint8_t follows[] = {0x53, 0x44, 0x31, 1, 1, 0, 0};
    const uint16_t short_list[] = {1, 2, 5}, not_right[] = {1, 2, 5, 5}, above[] = {1, 1, 4096};
    const uint16_t too_long[] = {1, 1, 0, 7};

    paint();
    REFUSED(read_drawing(ended, COUNT(ended)), STRIP_INPUT_ENDED, 2);
    REFUSED(read_drawing(cut_off, COUNT(cut_off)), STRIP_INPUT_ENDED, 7);
    REFUSED(read_drawing(first, COUNT(first)), STRIP_NOT_A_SHEET, 0);
    REFUSED(strip_read(first_file, COUNT(first_file), room.numbers, STRIP_MAX_NUMBERS),
            STRIP_NOT_A_SHEET, 0);
    REFUSED(strip_check(first_file, COUNT(first_file), first_places, 3, first_list, 8),
            STRIP_NOT_A_SHEET, 0);
    BAD_SHEET(first_file, STRIP_NOT_A_SHEET, 0);
    REFUSED(read_drawing(form, COUNT(form)), STRIP_NUMBER_FORM, 6);
    REFUSED(read_drawing(passes, COUNT(passes)), STRIP_OUTSIDE_LIMITS, 7);
    REFUSED(read_drawing(zero, COUNT(zero)), STRIP_OUTSIDE_LIMITS, 6);
    REFUSED(read_drawing(large, COUNT(large)), STRIP_OUTSIDE_LIMITS, 6);
    REFUSED(read_drawing(follows, COUNT(follows)), STRIP_SOMETHING_FOLLOWS, 6);
    REFUSED(strip_read_drawing(follows, COUNT(follows), NULL, 0), STRIP_SOMETHING_FOLLOWS, 6);
    REFUSED(strip_read_drawing(first_file, 9, room.drawing, 5), STRIP_SLICE_SHORT, 0);
    REFUSED(write_drawing(short_list, COUNT(short_list)), STRIP_INPUT_ENDED, 3);
    REFUSED(write_drawing(not_right, COUNT(not_right)), STRIP_OUTSIDE_LIMITS, 3);
    REFUSED(write_drawing(above, COUNT(above)), STRIP_OUTSIDE_LIMITS, 2);
    REFUSED(write_drawing(too_long, COUNT(too_long)), STRIP_SOMETHING_FOLLOWS, 3);
    REFUSED(strip_write_drawing(too_long, COUNT(too_long), NULL, 0), STRIP_SOMETHING_FOLLOWS, 3);
    REFUSED(strip_write_drawing(first_drawing, 6, room.file, 8), STRIP_SLICE_SHORT, 0);
    assert(untouched());
}

/* The parts of an answer: 16 bits, 16 bits and 32 bits. */
static void parts(void) {
    assert(strip_second(UINT64_C(0x89abcdef01234567)) == UINT32_C(0x89ab));
    assert(strip_refusal(UINT64_C(0x89abcdef01234567)) == UINT32_C(0xcdef));
    assert(strip_value(UINT64_C(0x89abcdef01234567)) == UINT32_C(0x01234567));
    assert(strip_second(UINT64_C(0x0000ffffffffffff)) == 0);
    assert(strip_refusal(UINT64_C(0xffff0000ffffffff)) == 0);
    assert(strip_value(UINT64_C(0xffffffff00000000)) == 0);
}

/* NULL with length 0 is an empty slice, for each slice of each function. */
static void empty_slices(void) {
    const uint32_t width = 5;
    size_t length = COUNT(first), count = COUNT(first_numbers);

    paint();
    REFUSED(strip_read(NULL, 0, NULL, 0), 1, 0);
    REFUSED(strip_read(NULL, 0, room.numbers, STRIP_MAX_NUMBERS), 1, 0);
    REFUSED(strip_read(first, length, NULL, 0), 7, 0);
    REFUSED(strip_write(NULL, 0, NULL, 0), 1, 0);
    REFUSED(strip_write(NULL, 0, room.sheet, STRIP_MAX_SHEET_BYTES), 1, 0);
    REFUSED(strip_write(first_numbers, count, NULL, 0), 7, 0);
    REFUSED(strip_draw(NULL, 0, NULL, 0, NULL, 0), 1, 0);
    REFUSED(draw(NULL, 0), 1, 0);
    REFUSED(strip_draw(first, length, NULL, 0, NULL, 0), 7, 0);
    REFUSED(strip_draw(first, length, NULL, 0, room.list, STRIP_MAX_LIST), 7, 0);
    REFUSED(strip_draw(first, length, room.places, STRIP_MAX_PLACES, NULL, 0), 7, 0);
    REFUSED(strip_check(NULL, 0, NULL, 0, NULL, 0), 1, 0);
    REFUSED(strip_check(NULL, 0, first_places, 3, first_list, 8), 1, 0);
    REFUSED(strip_check(first, length, NULL, 0, NULL, 0), 7, 0);
    REFUSED(strip_check(first, length, NULL, 0, first_list, 8), 7, 0);
    REFUSED(strip_check(first, length, first_places, 3, NULL, 0), 7, 0);
    REFUSED(strip_narrowest(NULL, 0), 1, 0);
    REFUSED(strip_totals(NULL, 0, NULL, 0, NULL, 0), 1, 0);
    REFUSED(totals(NULL, 0, &width, 1), 1, 0);
    REFUSED(strip_totals(first, length, &width, 1, NULL, 0), 7, 0);
    assert(strip_totals(first, length, NULL, 0, NULL, 0) == 0);
    assert(strip_totals(first, length, &width, 0, NULL, 0) == 0);
    assert(totals(first, length, NULL, 0) == 0);
    REFUSED(strip_read_drawing(NULL, 0, NULL, 0), 1, 0);
    REFUSED(read_drawing(NULL, 0), 1, 0);
    REFUSED(strip_read_drawing(first_file, COUNT(first_file), NULL, 0), 7, 0);
    REFUSED(strip_write_drawing(NULL, 0, NULL, 0), 1, 0);
    REFUSED(write_drawing(NULL, 0), 1, 0);
    REFUSED(strip_write_drawing(first_drawing, COUNT(first_drawing), NULL, 0), 7, 0);
    assert(untouched());
}

/* Lists the numbers of a sheet of full size: 4 layers of 64 nodes, 512 edges, no two parallel. */
static size_t full_numbers(uint16_t width, uint16_t *numbers) {
    size_t count = 0;
    uint16_t layer, node, edge;

    numbers[count++] = width;
    numbers[count++] = 4;
    for (layer = 1; layer <= 4; layer++) {
        numbers[count++] = 64;
        for (node = 1; node < 64; node++) {
            numbers[count++] = 1 + node % 3;
            numbers[count++] = 0;
        }
    }
    numbers[count++] = 512;
    for (edge = 0; edge < 512; edge++) {
        numbers[count++] = 1 + edge % 3;
        numbers[count++] = 1 + edge % 64;
        numbers[count++] = 1 + (edge + edge / 64 + 1) % 64;
        numbers[count++] = 0;
    }
    return count;
}

/* A sheet of full size needs slices of the greatest sizes, and no larger ones. */
static void greatest_sizes(void) {
    static uint16_t numbers[STRIP_MAX_NUMBERS];
    size_t count = full_numbers(400, numbers), length;
    uint64_t answer;

    assert(count == STRIP_MAX_NUMBERS);
    assert(STRIP_MAX_SHEET_BYTES == 3 + 2 * STRIP_MAX_NUMBERS);
    answer = strip_write(numbers, count, room.sheet, STRIP_MAX_SHEET_BYTES);
    assert(strip_refusal(answer) == STRIP_OK);
    length = strip_value(answer);
    REFUSED(strip_write(numbers, count, room.sheet, length - 1), STRIP_SLICE_SHORT, 0);
    REFUSED(strip_read(room.sheet, length, room.numbers, STRIP_MAX_NUMBERS - 1),
            STRIP_SLICE_SHORT, 0);
    assert(strip_read(room.sheet, length, room.numbers, STRIP_MAX_NUMBERS) == STRIP_MAX_NUMBERS);
    assert(memcmp(room.numbers, numbers, sizeof numbers) == 0);
    REFUSED(strip_draw(room.sheet, length, room.places, STRIP_MAX_PLACES - 1, room.list,
                       STRIP_MAX_LIST),
            STRIP_SLICE_SHORT, 0);
    REFUSED(strip_draw(room.sheet, length, room.places, STRIP_MAX_PLACES, room.list,
                       STRIP_MAX_LIST - 1),
            STRIP_SLICE_SHORT, 0);
    assert(strip_refusal(draw(room.sheet, length)) == STRIP_OK);
    assert(strip_check(room.sheet, length, room.places, STRIP_MAX_PLACES, room.list,
                       STRIP_MAX_LIST) == 1);
    answer = strip_narrowest(room.sheet, length);
    assert(strip_refusal(answer) == STRIP_OK && strip_second(answer) == 126);
}

/* Each of 64 totals of a sheet of full size is what drawing it with that width tells. The widths
 * fall from 158 to 95, and the minimum width is 126. */
static void most_widths(void) {
    static uint16_t numbers[STRIP_MAX_NUMBERS];
    size_t count = full_numbers(400, numbers), length;
    uint32_t widths[STRIP_MAX_WIDTHS];
    uint64_t answer;
    uint16_t i;

    paint();
    length = strip_write(numbers, count, room.sheet, STRIP_MAX_SHEET_BYTES);
    for (i = 0; i < STRIP_MAX_WIDTHS; i++)
        widths[i] = 158u - i;
    assert(totals(room.sheet, length, widths, STRIP_MAX_WIDTHS) == STRIP_MAX_WIDTHS);
    assert(room.totals[STRIP_MAX_WIDTHS] == 0xa5a5a5a5);
    for (i = 0; i < STRIP_MAX_WIDTHS; i++) {
        numbers[0] = 158 - i;
        length = strip_write(numbers, count, room.sheet, STRIP_MAX_SHEET_BYTES);
        answer = draw(room.sheet, length);
        if (widths[i] < 126)
            REFUSED(answer, STRIP_NO_DRAWING, 0);
        assert(room.totals[i] == (widths[i] < 126 ? STRIP_NO_TOTAL : answer));
    }
}

/* A coordinate file of full size, 64 layers of 4 nodes, needs slices of just its own lengths. */
static void greatest_file(void) {
    static uint16_t drawing[STRIP_MAX_DRAWING_NUMBERS];
    size_t count = 0, length;
    uint64_t answer;
    uint16_t layer, node;

    drawing[count++] = 64;
    for (layer = 0; layer < 64; layer++) {
        drawing[count++] = 4;
        for (node = 0; node < 4; node++)
            drawing[count++] = 4095 - (3 - node) * (layer + 1000);
    }
    assert(count == STRIP_MAX_DRAWING_NUMBERS);
    assert(STRIP_MAX_DRAWING_BYTES == 3 + 2 * STRIP_MAX_DRAWING_NUMBERS);
    answer = write_drawing(drawing, count);
    assert(strip_refusal(answer) == STRIP_OK);
    length = strip_value(answer);
    REFUSED(strip_write_drawing(drawing, count, room.file, length - 1), STRIP_SLICE_SHORT, 0);
    REFUSED(strip_read_drawing(room.file, length, room.drawing, STRIP_MAX_DRAWING_NUMBERS - 1),
            STRIP_SLICE_SHORT, 0);
    assert(read_drawing(room.file, length) == STRIP_MAX_DRAWING_NUMBERS);
    assert(memcmp(room.drawing, drawing, sizeof drawing) == 0);
    /* the last of 64 counts, 5 instead of 4, passes the 256 nodes */
    drawing[count - 5] = 5;
    REFUSED(write_drawing(drawing, count), STRIP_OUTSIDE_LIMITS, count - 5);
    room.file[length - 9] = 5;
    REFUSED(read_drawing(room.file, length), STRIP_OUTSIDE_LIMITS, length - 9);
}

/* A sheet that several threads draw, and what they must find. */
struct shared {
    uint8_t sheet[STRIP_MAX_SHEET_BYTES];
    size_t sheet_len;
    uint64_t answer;
    uint64_t narrowest;
    uint16_t places[STRIP_MAX_PLACES];
};
static struct shared shared[2];

/* How many threads draw, how many times, and what lets them start at once. */
enum { THREADS = 6, ROUNDS = 100 };
static pthread_barrier_t start;

/* Makes a sheet of full size for the threads, and its drawing. */
static void prepare(uint16_t width, struct shared *s) {
    static uint16_t numbers[STRIP_MAX_NUMBERS];
    size_t count = full_numbers(width, numbers);

    s->sheet_len = strip_write(numbers, count, s->sheet, STRIP_MAX_SHEET_BYTES);
    s->answer = draw(s->sheet, s->sheet_len);
    assert(strip_refusal(s->answer) == STRIP_OK);
    s->narrowest = strip_narrowest(s->sheet, s->sheet_len);
    memcpy(s->places, room.places, sizeof s->places);
}

/* Draws both sheets by turns. They differ in their widths alone. */
static void *draw_by_turns(void *nothing) {
    const uint32_t widths[] = {400, 126};
    uint16_t places[STRIP_MAX_PLACES];
    int32_t list[STRIP_MAX_LIST];
    uint32_t told[2];
    int round;

    pthread_barrier_wait(&start);
    for (round = 0; round < ROUNDS; round++) {
        const struct shared *s = &shared[round % 2];
        assert(strip_draw(s->sheet, s->sheet_len, places, STRIP_MAX_PLACES, list,
                          STRIP_MAX_LIST) == s->answer);
        assert(memcmp(places, s->places, sizeof places) == 0);
        assert(strip_check(s->sheet, s->sheet_len, places, STRIP_MAX_PLACES, list,
                           STRIP_MAX_LIST) == 1);
        assert(strip_narrowest(s->sheet, s->sheet_len) == s->narrowest);
        assert(strip_totals(s->sheet, s->sheet_len, widths, 2, told, 2) == 2);
        assert(told[0] == shared[0].answer && told[1] == shared[1].answer);
    }
    return nothing;
}

/* Several threads at once draw the same sheets and find the same. */
static void threads(void) {
    pthread_t thread[THREADS];
    int i;

    prepare(400, &shared[0]);
    prepare(126, &shared[1]);
    assert(shared[0].answer != shared[1].answer);
    NARROWEST(shared[0].narrowest, 126, strip_value(shared[1].answer));
    assert(shared[0].narrowest == shared[1].narrowest);
    assert(pthread_barrier_init(&start, NULL, THREADS) == 0);
    for (i = 0; i < THREADS; i++)
        assert(pthread_create(&thread[i], NULL, draw_by_turns, NULL) == 0);
    for (i = 0; i < THREADS; i++)
        assert(pthread_join(thread[i], NULL) == 0);
}

/* The version of the library is that of the header. */
static void version(void) {
    uint32_t told = strip_version();

    assert(told >> 16 == STRIP_VERSION_MAJOR);
    assert((told >> 8 & 0xFF) == STRIP_VERSION_MINOR);
    assert((told & 0xFF) == STRIP_VERSION_PATCH);
}

/* Runs all of it, and says so. */
int main(void) {
    version();
    answers();
    parallel_edges();
    narrowest();
    many_widths();
    coordinate_files();
    refusals();
    width_refusals();
    file_refusals();
    parts();
    empty_slices();
    greatest_sizes();
    most_widths();
    greatest_file();
    threads();
    puts("all as documents 01 and 02 say");
    return 0;
}
