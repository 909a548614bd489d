/*
 * Draws the sheet in a file, prints the drawing as the program place does, then the pull list, and
 * what the checker says of both.
 *
 * Exit status: 0 drawn and accepted, 1 refused or not accepted, 2 the file cannot be read or the
 * answer cannot be written.
 */
#include <stdio.h>
#include <strip.h>

/* A sheet and one byte more: no answer depends on a later one. */
enum { INPUT_BYTES = STRIP_MAX_SHEET_BYTES + 1 };

/* Reads a file into sheet, and answers how many bytes it has; -1 if it cannot be read. */
static long read_file(const char *path, uint8_t *sheet) {
    FILE *file = fopen(path, "rb");
    size_t length;
    int failed;

    if (file == NULL)
        return -1;
    length = fread(sheet, 1, INPUT_BYTES, file);
    failed = ferror(file);
    fclose(file);
    return failed ? -1 : (long)length;
}

/* Prints a line for each node: layer, position and place. Answers the index of the count of edges,
 * which stands behind the layers. */
static int print_nodes(const uint16_t *numbers, const uint16_t *places) {
    int layer, position, at = 2;

    for (layer = 1; layer <= numbers[1]; layer++) {
        for (position = 1; position <= numbers[at]; position++)
            printf("%d %d %d\n", layer, position, *places++);
        at += 2 * numbers[at] - 1;
    }
    return at;
}

/* Prints so many numbers of the list and ends the line. Answers the rest of the list. */
static const int32_t *print_numbers(int count, const int32_t *list) {
    while (count-- > 0)
        printf(" %ld", (long)*list++);
    printf("\n");
    return list;
}

/* Prints the list: the pulls of all edges, then the pushes of each layer. */
static void print_list(const uint16_t *numbers, int edges, const int32_t *list) {
    int layer, at = 2;

    printf("pulls of the edges:");
    list = print_numbers(edges, list);
    for (layer = 1; layer <= numbers[1]; layer++) {
        printf("pushes of layer %d:", layer);
        list = print_numbers(2 * numbers[at], list);
        at += 2 * numbers[at] - 1;
    }
}

/* Draws a sheet and prints all that there is to say; answers the exit status. */
static int check(const uint8_t *sheet, size_t length) {
    uint16_t numbers[STRIP_MAX_NUMBERS], places[STRIP_MAX_PLACES];
    int32_t list[STRIP_MAX_LIST];
    uint64_t answer, word;
    int at;

    answer = strip_draw(sheet, length, places, STRIP_MAX_PLACES, list, STRIP_MAX_LIST);
    if (strip_refusal(answer) != STRIP_OK) {
        printf("refused %lu at %lu\n", (unsigned long)strip_refusal(answer),
               (unsigned long)strip_value(answer));
        return 1;
    }
    word = strip_read(sheet, length, numbers, STRIP_MAX_NUMBERS);
    if (strip_refusal(word) != STRIP_OK)
        return 1;
    printf("total %lu\n", (unsigned long)strip_value(answer));
    at = print_nodes(numbers, places);
    print_list(numbers, numbers[at], list);

    /* Whoever made places and list, a yes shows that no drawing has a smaller total. */
    word = strip_check(sheet, length, places, STRIP_MAX_PLACES, list, STRIP_MAX_LIST);
    printf("checked: %s\n", word == 1 ? "yes" : "no");
    return word == 1 ? 0 : 1;
}

int main(int argc, char **argv) {
    uint8_t sheet[INPUT_BYTES];
    long length;
    int status;

    if (argc != 2) {
        fprintf(stderr, "usage: check FILE\n");
        return 2;
    }
    length = read_file(argv[1], sheet);
    if (length < 0) {
        perror(argv[1]);
        return 2;
    }
    status = check(sheet, (size_t)length);
    if (fflush(stdout) != 0) {
        perror("check");
        return 2;
    }
    return status;
}
