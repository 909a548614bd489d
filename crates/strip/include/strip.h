/*
 * Path strips: read, write, draw and check sheets, tell their minimum width and their totals at
 * other widths, and read and write coordinate files, which hold drawings.
 *
 * A slice is a pointer to its first element and the count of its elements. An answer is one number
 * of 64 bits: strip_refusal() is 0 where the call succeeded, and strip_value() is then its result.
 * Otherwise strip_refusal() says why there is none, and strip_value() where: the offset of a byte
 * in the sheet or file (for strip_write and strip_write_drawing the index of a number, for a width
 * of strip_totals its index in the list of widths), from 0. strip_second() is the second result of
 * strip_narrowest; it is 0 on every refusal and in every other call. On a refusal no slice is
 * written. Elements behind the last one written keep their contents.
 *
 * What the caller sees to: pointers are valid for as many elements as the count says, and aligned.
 * A slice that is written overlaps no other. A pointer may be NULL where the count is 0. Apart from
 * that every input is allowed.
 *
 * The functions allocate nothing, have no state, set no errno, and do no input or output. They can
 * be called from any thread, also from several at once. They need memcpy and memset of the C
 * library, and STRIP_STACK_BYTES of stack.
 */
#ifndef STRIP_H
#define STRIP_H

#include <stddef.h>
#include <stdint.h>

#ifdef __cplusplus
extern "C" {
#endif

/* Stands before a function whose answer is to be looked at: the compiler warns where it is not. */
#if defined(__cplusplus) && __cplusplus >= 201703L
#define STRIP_NODISCARD [[nodiscard]]
#elif defined(__STDC_VERSION__) && __STDC_VERSION__ >= 202311L
#define STRIP_NODISCARD [[nodiscard]]
#elif defined(__GNUC__)
#define STRIP_NODISCARD __attribute__((warn_unused_result))
#else
#define STRIP_NODISCARD
#endif

/* The version that this header belongs to, as text and in its parts. Libraries of the same MAJOR
 * and MINOR give the same answers. */
#define STRIP_VERSION "0.7.0"
#define STRIP_VERSION_MAJOR 0
#define STRIP_VERSION_MINOR 7
#define STRIP_VERSION_PATCH 0

/* No sheet has more bytes. */
#define STRIP_MAX_SHEET_BYTES 5121
/* The greatest count of numbers in a sheet's number list. */
#define STRIP_MAX_NUMBERS 2559
/* The greatest count of places in a drawing: one for each node. */
#define STRIP_MAX_PLACES 256
/* The greatest count of numbers in a list: one for each edge and two for each node. */
#define STRIP_MAX_LIST 1024
/* The greatest count of numbers in the list of a coordinate file: the count of layers, one for
 * each layer and one for each node. */
#define STRIP_MAX_DRAWING_NUMBERS 321
/* No coordinate file has more bytes. */
#define STRIP_MAX_DRAWING_BYTES 645
/* The greatest count of widths in a list of widths. */
#define STRIP_MAX_WIDTHS 64
/* Stands among totals for a width at which the sheet has no drawing. No total is as great. */
#define STRIP_NO_TOTAL 0xFFFFFFFF
/* The stack that any of the functions needs, in bytes. */
#define STRIP_STACK_BYTES 53248

/* The values of strip_refusal(); strip_value() is then the offset. 9 is not used: later numbers
 * begin at 10. */
enum {
    /* The call succeeded. */
    STRIP_OK = 0,
    /* The input ends before the sheet or file does. The offset is the input's length. */
    STRIP_INPUT_ENDED = 1,
    /* The first three bytes are not those of the format. They are 53 50 31 in a sheet, 53 44 31 in
     * a coordinate file. Both readers meet it, each with the other's bytes too. The offset is 0. */
    STRIP_NOT_A_SHEET = 2,
    /* A number is not in the fewest bytes, or takes more than two. The offset is that of the
     * number's first byte. */
    STRIP_NUMBER_FORM = 3,
    /* A number lies outside its limits. The offset is that of the number's first byte; of a width
     * in a list of widths, its index there. */
    STRIP_OUTSIDE_LIMITS = 4,
    /* A maximum separation is set and is below its minimum separation. The offset is that of the
     * maximum's first byte. */
    STRIP_SEPARATIONS_CROSSED = 5,
    /* Something follows the last edge of a sheet, or the last node of a coordinate file. The
     * offset is that of the first byte too many. */
    STRIP_SOMETHING_FOLLOWS = 6,
    /* A slice is too short for what is to be read or written there. The slice for totals is too
     * short if it has fewer elements than there are widths. The offset is 0. */
    STRIP_SLICE_SHORT = 7,
    /* No drawing exists. The offset is 0. */
    STRIP_NO_DRAWING = 8,
    /* No width from 0 to 4,095 has a drawing. The offset is 0. */
    STRIP_NO_WIDTH = 10,
    /* There are more than 64 widths. The offset is 0. */
    STRIP_MANY_WIDTHS = 11
};

/* Reads the number list of a sheet into the front of numbers. The value is the count of numbers.
 * Refusals 1 to 7. STRIP_MAX_NUMBERS elements are enough for every sheet. */
STRIP_NODISCARD
uint64_t strip_read(const uint8_t *sheet, size_t sheet_len,
                    uint16_t *numbers, size_t numbers_len);

/* Writes the sheet of a number list into the front of sheet. The value is the count of bytes.
 * Refusals 1, 4, 5, 6 and 7. STRIP_MAX_SHEET_BYTES elements are enough for every sheet. */
STRIP_NODISCARD
uint64_t strip_write(const uint16_t *numbers, size_t numbers_len,
                     uint8_t *sheet, size_t sheet_len);

/* Writes the leftmost drawing of least total, and a list that shows it to be least. The value is
 * the total. It is the lengths of the edges, added, where parallel edges (those with the same two
 * ends) count once. The list starts with a pull for each edge, in the sheet's order: of parallel
 * edges the first carries the pull, and each later one's is 0. Refusals 1 to 8. STRIP_MAX_PLACES
 * and STRIP_MAX_LIST are enough for every sheet. */
STRIP_NODISCARD
uint64_t strip_draw(const uint8_t *sheet, size_t sheet_len,
                    uint16_t *places, size_t places_len,
                    int32_t *list, size_t list_len);

/* Says whether the list shows that the places are a drawing of least total. The value is 1 for
 * yes, 0 for no. The total is that of strip_draw. The pull of the first of parallel edges is -1, 0
 * or 1, or any number where one of them is straight; where a later one's is not 0 the answer is no.
 * Refusals 1 to 7. Elements behind those that the sheet needs are not looked at. */
STRIP_NODISCARD
uint64_t strip_check(const uint8_t *sheet, size_t sheet_len,
                     const uint16_t *places, size_t places_len,
                     const int32_t *list, size_t list_len);

/* Tells the minimum width, the least at which the sheet has a drawing, whatever its own width is;
 * and the least total at that width. The value is the total, strip_second() the width. Refusals 1
 * to 6 and 10. */
STRIP_NODISCARD
uint64_t strip_narrowest(const uint8_t *sheet, size_t sheet_len);

/* Tells the least total of a sheet at each of up to STRIP_MAX_WIDTHS widths, whatever its own width
 * is. For each width, in the list's order, it writes into the front of totals what strip_draw tells
 * of the sheet with this width: the total, or STRIP_NO_TOTAL if there is no drawing. Widths may
 * repeat and stand in any order. The value is the count of totals, one for each width. Refusals 1
 * to 7 and 11. They are tested in this order: 1 to 6 of the sheet, 11, 4 of the first width above
 * 4,095, 7. STRIP_MAX_WIDTHS elements are enough for every list of widths. */
STRIP_NODISCARD
uint64_t strip_totals(const uint8_t *sheet, size_t sheet_len,
                      const uint32_t *widths, size_t widths_len,
                      uint32_t *totals, size_t totals_len);

/* Reads a coordinate file into the front of numbers: the count of layers, then for each layer its
 * count of nodes and their places. The value is the count of numbers. Refusals 1, 2, 3, 4, 6 and 7.
 * STRIP_MAX_DRAWING_NUMBERS elements are enough for every file. */
STRIP_NODISCARD
uint64_t strip_read_drawing(const uint8_t *file, size_t file_len,
                            uint16_t *numbers, size_t numbers_len);

/* Writes the coordinate file of such a list into the front of file. The value is the count of
 * bytes. Refusals 1, 4, 6 and 7. STRIP_MAX_DRAWING_BYTES elements are enough for every file. */
STRIP_NODISCARD
uint64_t strip_write_drawing(const uint16_t *numbers, size_t numbers_len,
                             uint8_t *file, size_t file_len);

/* Tells the version of the library that is linked or loaded. The value is MAJOR * 65536 + MINOR * 256
 * + PATCH; it is no answer. */
uint32_t strip_version(void);

/* The number of the refusal in an answer; 0 where the call succeeded. */
static inline uint32_t strip_refusal(uint64_t answer) {
    return (answer >> 32) & 0xFFFF;
}

/* The value in an answer: the result, or where the input is refused. */
static inline uint32_t strip_value(uint64_t answer) {
    return answer & 0xFFFFFFFF;
}

/* The second value in an answer: the minimum width of strip_narrowest; 0 elsewhere. */
static inline uint32_t strip_second(uint64_t answer) {
    return strip_value(answer >> 48);
}

/* What a number of strip_refusal() means, in a sentence without its full stop. */
static inline const char *strip_refusal_text(uint32_t number) {
    switch (number) {
    /* generated from strip.h, texts of refusals: begin */
    case STRIP_INPUT_ENDED:
        return "The input ends before the sheet or file does";
    case STRIP_NOT_A_SHEET:
        return "The first three bytes are not those of the format";
    case STRIP_NUMBER_FORM:
        return "A number is not in the fewest bytes, or takes more than two";
    case STRIP_OUTSIDE_LIMITS:
        return "A number lies outside its limits";
    case STRIP_SEPARATIONS_CROSSED:
        return "A maximum separation is set and is below its minimum separation";
    case STRIP_SOMETHING_FOLLOWS:
        return "Something follows the last edge of a sheet, or the last node of a coordinate file";
    case STRIP_SLICE_SHORT:
        return "A slice is too short for what is to be read or written there";
    case STRIP_NO_DRAWING:
        return "No drawing exists";
    case STRIP_NO_WIDTH:
        return "No width from 0 to 4,095 has a drawing";
    case STRIP_MANY_WIDTHS:
        return "There are more than 64 widths";
    /* generated from strip.h, texts of refusals: end */
    default:
        return number == STRIP_OK ? "The call succeeded" : "No refusal has this number";
    }
}

#ifdef __cplusplus
}
#endif

#endif
