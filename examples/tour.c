/*
 * Every function: reads a sheet, tells its minimum width, writes it with another width, tells its
 * totals at several widths, draws it, has the drawing checked, makes a coordinate file of it, and
 * reads that. It prints the minimum width with the least total there, the total at the minimum
 * width, at the other one and at the greatest one, the drawing's total, what the checker says, and
 * then how long the coordinate file is.
 *
 * Exit status: 0 drawn and accepted, 1 refused or not accepted, 2 the file cannot be read or the
 * width is no number.
 */
#include <stdio.h>
#include <strip.h>

/* Prints the refusal of a call with its text, where it has one, and answers whether it has. */
static int refused(const char *call, uint64_t answer) {
    if (strip_refusal(answer) == STRIP_OK)
        return 0;
    printf("%s: refused %lu at %lu: %s\n", call, (unsigned long)strip_refusal(answer),
           (unsigned long)strip_value(answer), strip_refusal_text(strip_refusal(answer)));
    return 1;
}

/* Reads a width in decimal digits, and answers whether the text is one. A width that is too great
 * for a number of a sheet becomes the greatest one, which is refused. */
static int read_width(const char *text, uint16_t *width) {
    unsigned long number = 0;

    if (*text == '\0')
        return 0;
    for (; *text >= '0' && *text <= '9'; text++) {
        number = 10 * number + (unsigned long)(*text - '0');
        if (number > UINT16_MAX)
            number = UINT16_MAX;
    }
    *width = (uint16_t)number;
    return *text == '\0';
}

/* Lists the numbers of a coordinate file, from the numbers of a sheet and the places of a drawing:
 * the count of layers, then for each layer its count of nodes and its places. Answers how many. */
static size_t list_drawing(const uint16_t *numbers, const uint16_t *places, uint16_t *drawing) {
    size_t count = 0, at = 2;
    int layer, position;

    drawing[count++] = numbers[1];
    for (layer = 1; layer <= numbers[1]; layer++) {
        drawing[count++] = numbers[at];
        for (position = 1; position <= numbers[at]; position++)
            drawing[count++] = *places++;
        at += 2u * numbers[at] - 1;
    }
    return count;
}

int main(int argc, char **argv) {
    uint8_t bytes[STRIP_MAX_SHEET_BYTES + 1], drill[STRIP_MAX_DRAWING_BYTES];
    uint16_t numbers[STRIP_MAX_NUMBERS], places[STRIP_MAX_PLACES];
    uint16_t drawing[STRIP_MAX_DRAWING_NUMBERS];
    int32_t list[STRIP_MAX_LIST];
    uint32_t widths[3], totals[3];
    uint16_t width;
    size_t length, count, i;
    uint64_t answer;
    FILE *file;

    if (argc != 3) {
        fprintf(stderr, "usage: tour FILE WIDTH\n");
        return 2;
    }
    /* A library of the same MAJOR and MINOR answers as the header says. */
    if (strip_version() >> 8 != (STRIP_VERSION_MAJOR << 8 | STRIP_VERSION_MINOR)) {
        fprintf(stderr, "tour: the library has another version than strip.h, " STRIP_VERSION "\n");
        return 2;
    }
    if (!read_width(argv[2], &width)) {
        fprintf(stderr, "tour: '%s' is no width: it takes decimal digits alone\n", argv[2]);
        return 2;
    }
    file = fopen(argv[1], "rb");
    length = file == NULL ? 0 : fread(bytes, 1, sizeof bytes, file);
    if (file == NULL || ferror(file)) {
        perror(argv[1]);
        return 2;
    }
    fclose(file);

    /* The number list of the sheet; its first number is the width. */
    answer = strip_read(bytes, length, numbers, STRIP_MAX_NUMBERS);
    if (refused("read", answer))
        return 1;
    count = strip_value(answer);
    numbers[0] = width;

    /* The least width at which it has a drawing, with the least total there. */
    answer = strip_narrowest(bytes, length);
    if (refused("narrowest", answer))
        return 1;
    printf("narrowest: width %lu, total %lu\n", (unsigned long)strip_second(answer),
           (unsigned long)strip_value(answer));
    widths[0] = strip_second(answer);
    widths[1] = width;
    widths[2] = 4095;

    /* The same sheet with another width; one outside the limits is refused. */
    answer = strip_write(numbers, count, bytes, sizeof bytes);
    if (refused("write", answer))
        return 1;
    length = strip_value(answer);

    /* Its least total at each of several widths, or that it has no drawing there. */
    answer = strip_totals(bytes, length, widths, 3, totals, 3);
    if (refused("totals", answer))
        return 1;
    for (i = 0; i < strip_value(answer); i++) {
        if (totals[i] == STRIP_NO_TOTAL)
            printf("width %lu: no drawing\n", (unsigned long)widths[i]);
        else
            printf("width %lu: total %lu\n", (unsigned long)widths[i], (unsigned long)totals[i]);
    }

    /* Its drawing, with a list that shows the total to be least. */
    answer = strip_draw(bytes, length, places, STRIP_MAX_PLACES, list, STRIP_MAX_LIST);
    if (refused("draw", answer))
        return 1;
    printf("total %lu\n", (unsigned long)strip_value(answer));

    /* What anybody can check, whoever made places and list. */
    answer = strip_check(bytes, length, places, STRIP_MAX_PLACES, list, STRIP_MAX_LIST);
    if (refused("check", answer))
        return 1;
    printf("checked: %s\n", strip_value(answer) == 1 ? "yes" : "no");
    if (strip_value(answer) != 1)
        return 1;

    /* The drawing as a file, for a drill that takes places. */
    count = list_drawing(numbers, places, drawing);
    answer = strip_write_drawing(drawing, count, drill, sizeof drill);
    if (refused("write_drawing", answer))
        return 1;
    length = strip_value(answer);

    /* What is read there: the same counts and places. */
    answer = strip_read_drawing(drill, length, drawing, STRIP_MAX_DRAWING_NUMBERS);
    if (refused("read_drawing", answer))
        return 1;
    printf("file: %lu bytes, %lu numbers\n", (unsigned long)length,
           (unsigned long)strip_value(answer));
    return 0;
}
