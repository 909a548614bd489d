/*
 * Draws the sheet in a file, and prints the drawing or the refusal as the program place does.
 *
 * Exit status: 0 drawn, 1 refused, 2 the file cannot be read or the answer cannot be written.
 */
#include <stdio.h>
#include <strip.h>

/* A sheet and one byte more: no answer depends on a later one. */
enum { INPUT_BYTES = STRIP_MAX_SHEET_BYTES + 1 };

/* Reads a file into sheet, and answers how many bytes it has; -1 where it cannot be read. */
static long read_file(const char *path, uint8_t *sheet) {
    FILE *file = fopen(path, "rb");
    size_t length;
    int failed;

    if (file == NULL)
        return -1;
    length = fread(sheet, 1, INPUT_BYTES, file);
    failed = ferror(file);
    fclose(file);
    return failed ? -1 : (long)length;
}

/* Prints a line for each node: layer, position and place. */
static void print_nodes(const uint16_t *numbers, const uint16_t *places) {
    int layer, position, at = 2, node = 0;

    for (layer = 1; layer <= numbers[1]; layer++) {
        for (position = 1; position <= numbers[at]; position++)
            printf("%d %d %d\n", layer, position, places[node++]);
        at += 2 * numbers[at] - 1;
    }
}

int main(int argc, char **argv) {
    uint8_t sheet[INPUT_BYTES];
    uint16_t numbers[STRIP_MAX_NUMBERS], places[STRIP_MAX_PLACES];
    int32_t list[STRIP_MAX_LIST];
    uint64_t answer;
    long length;

    if (argc != 2) {
        fprintf(stderr, "usage: draw FILE\n");
        return 2;
    }
    length = read_file(argv[1], sheet);
    if (length < 0) {
        perror(argv[1]);
        return 2;
    }
    answer = strip_read(sheet, (size_t)length, numbers, STRIP_MAX_NUMBERS);
    if (strip_refusal(answer) == STRIP_OK)
        answer = strip_draw(sheet, (size_t)length, places, STRIP_MAX_PLACES, list, STRIP_MAX_LIST);
    if (strip_refusal(answer) == STRIP_OK) {
        printf("total %lu\n", (unsigned long)strip_value(answer));
        print_nodes(numbers, places);
    } else {
        printf("refused %lu at %lu\n", (unsigned long)strip_refusal(answer),
               (unsigned long)strip_value(answer));
    }
    if (fflush(stdout) != 0) {
        perror("draw");
        return 2;
    }
    return strip_refusal(answer) == STRIP_OK ? 0 : 1;
}
