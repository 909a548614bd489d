/*
 * Calls the functions of the library on sheets, coordinate files and number lists, each slice
 * in a block of memory of exactly its size, and prints every answer.
 *
 *     damaged PLACEMENT FAULT FILE
 *
 * PLACEMENT says where the blocks are: `heap`, with contents that are not initialised; or `before`
 * and `behind` a page that nobody may touch. FAULT is `none` or a deliberate fault: with `read` and
 * `write` both readers get the length of the bytes or of the numbers as one more than it is; with
 * `widths` and `totals` strip_totals gets that of the widths or of the totals so; with `undefined`
 * the checker gets contents that nobody wrote.
 */
#define _DEFAULT_SOURCE
#include <stdio.h>
#include <stdlib.h>
#include <string.h>
#include <strip.h>
#include <sys/mman.h>

/* How many elements an array has. */
#define COUNT(array) (sizeof(array) / sizeof(array)[0])

/* The size of a page, and what blocks beside a page are filled with. */
enum { PAGE = 4096, FILLING = 0xa5 };

/* The kinds of an item: a sheet, the numbers of one, a coordinate file, the numbers of one. */
enum { SHEET = 0, NUMBERS = 1, COORDINATES = 2, COORDINATE_NUMBERS = 3 };

/* A function that reads numbers from bytes, and one that writes bytes from numbers. */
typedef uint64_t reader(const uint8_t *, size_t, uint16_t *, size_t);
typedef uint64_t writer(const uint16_t *, size_t, uint8_t *, size_t);

/* A block of memory, and the pages around it where it is not on the heap. */
struct block {
    void *data;
    size_t size;
    unsigned char *pages;
    size_t pages_size;
};

/* The head of an item of the file; its bytes follow. The lengths are those that its slices need. */
struct item {
    uint32_t kind;
    uint32_t size;
    uint32_t numbers;
    uint32_t places;
    uint32_t list;
    uint32_t bytes;
};

/* Where blocks are. */
static enum { HEAP, BEFORE, BEHIND } placement;

/* The deliberate faults, 0 or 1 each. All but the last are added to lengths. */
static int read_fault, write_fault, widths_fault, totals_fault, undefined_fault;

/* Ends the program with one line that says why. */
static void fail(const char *why) {
    fprintf(stderr, "damaged: %s\n", why);
    exit(1);
}

/* A block between two pages that nobody may touch. */
static struct block take_pages(size_t size) {
    size_t inner = (size + PAGE - 1) / PAGE * PAGE;
    struct block block = {.size = size, .pages_size = inner + 2 * PAGE};
    block.pages = mmap(NULL, block.pages_size, PROT_NONE, MAP_PRIVATE | MAP_ANONYMOUS, -1, 0);
    if (block.pages == MAP_FAILED)
        fail("no memory");
    unsigned char *first = block.pages + PAGE;
    if (inner > 0 && mprotect(first, inner, PROT_READ | PROT_WRITE) != 0)
        fail("no memory");
    memset(first, FILLING, inner);
    block.data = placement == BEFORE ? first + inner - size : first;
    return block;
}

/* A block of just this size. */
static struct block take(size_t size) {
    if (placement != HEAP)
        return take_pages(size);
    struct block block = {.data = malloc(size), .size = size};
    if (block.data == NULL)
        fail("no memory");
    return block;
}

/* A block with these contents. */
static struct block copy_of(const void *from, size_t size) {
    struct block block = take(size);
    memcpy(block.data, from, size);
    return block;
}

/* Gives a block back. */
static void give_back(struct block block) {
    if (placement == HEAP)
        free(block.data);
    else if (munmap(block.pages, block.pages_size) != 0)
        fail("a block cannot be given back");
}

/* What an answer says is written, in elements; nothing where it is a refusal. */
static uint32_t count_in(uint64_t answer) {
    return strip_refusal(answer) == STRIP_OK ? strip_value(answer) : 0;
}

/* A sum of the front of a block (FNV-1a). Under valgrind printing it needs every byte defined. */
static uint32_t sum(struct block block, size_t size) {
    const unsigned char *bytes = block.data;
    uint32_t sum = 2166136261u;
    for (size_t i = 0; i < size; i++)
        sum = (sum ^ bytes[i]) * 16777619u;
    return sum;
}

/* Checks that every byte around the front of a block is as it was; nothing is known of the heap. */
static void check_kept(struct block block, size_t front) {
    if (placement == HEAP)
        return;
    const unsigned char *start = block.data, *at = block.pages + PAGE;
    const unsigned char *end = block.pages + block.pages_size - PAGE;
    const unsigned char *behind = start + (front < block.size ? front : block.size);
    for (; at < end; at++)
        if ((at < start || at >= behind) && *at != FILLING)
            fail("a call has written outside its result");
}

/* Prints an answer. */
static void show(const char *name, uint64_t answer) {
    printf("%s %016llx\n", name, (unsigned long long)answer);
}

/* Prints an answer and the sum of what was written, and checks the rest. */
static void show_written(const char *name, uint64_t answer, struct block written, size_t size) {
    printf("%s %016llx %08x\n", name, (unsigned long long)answer, sum(written, size));
    check_kept(written, size);
}

/* Reads into slices of just the length needed, one element shorter, and one longer. */
static void try_read(const char *name, reader read, const struct item *item, const void *bytes) {
    for (long more = -1; more <= 1; more++) {
        size_t length = item->numbers + more;
        struct block source = copy_of(bytes, item->size);
        struct block numbers = take(2 * length);
        uint64_t answer =
            read(source.data, item->size + read_fault, numbers.data, length + write_fault);
        show_written(name, answer, numbers, 2 * count_in(answer));
        give_back(numbers);
        give_back(source);
    }
}

/* Writes into slices of the same three lengths. */
static void try_write(const char *name, writer write, const struct item *item, const void *bytes) {
    for (long more = -1; more <= 1; more++) {
        size_t length = item->bytes + more;
        struct block numbers = copy_of(bytes, item->size);
        struct block written = take(length);
        uint64_t answer = write(numbers.data, item->size / 2, written.data, length);
        show_written(name, answer, written, count_in(answer));
        give_back(written);
        give_back(numbers);
    }
}

/* Has the checker look at places and a list. */
static void check(struct block sheet, struct block places, struct block list) {
    show("strip_check", strip_check(sheet.data, sheet.size, places.data, places.size / 2, list.data,
                                    list.size / 4));
}

/* Draws a sheet into slices that are longer than needed, and has the checker look at them. A refusal
 * other than 8 must not depend on them, nor an answer on what is behind the drawing. */
static void try_draw(const struct item *item, const void *bytes, long more_places, long more_list) {
    size_t places_length = item->places + more_places, list_length = item->list + more_list;
    struct block sheet = copy_of(bytes, item->size);
    struct block places = take(2 * places_length), list = take(4 * list_length);
    uint64_t answer = strip_draw(sheet.data, item->size, places.data, places_length, list.data,
                                 list_length);
    int is_drawn = strip_refusal(answer) == STRIP_OK;
    show_written("strip_draw", answer, places, is_drawn ? 2 * item->places : 0);
    check_kept(list, is_drawn ? 4 * item->list : 0);
    if (strip_refusal(answer) != STRIP_NO_DRAWING)
        check(sheet, places, list);
    give_back(list);
    give_back(places);
    give_back(sheet);
}

/* Draws a sheet into slices that are too short, just long enough, and longer. */
static void try_drawing(const struct item *item, const void *bytes) {
    try_draw(item, bytes, -1, 0);
    try_draw(item, bytes, 0, -1);
    try_draw(item, bytes, 0, 0);
    try_draw(item, bytes, 3, 5);
}

/* Checks places and a list in which every byte is the same. */
static void try_check(const struct item *item, const void *bytes) {
    static const int fillings[] = {0x00, 0x7f, 0x80, 0xff};
    for (size_t i = 0; i < COUNT(fillings); i++) {
        struct block sheet = copy_of(bytes, item->size);
        struct block places = take(2 * item->places), list = take(4 * item->list);
        if (!undefined_fault) {
            memset(places.data, fillings[i], places.size);
            memset(list.data, fillings[i], list.size);
        }
        check(sheet, places, list);
        give_back(list);
        give_back(places);
        give_back(sheet);
    }
}

/* Tells the minimum width of a sheet. */
static void try_narrowest(const struct item *item, const void *bytes) {
    struct block sheet = copy_of(bytes, item->size);
    show("strip_narrowest", strip_narrowest(sheet.data, sheet.size));
    give_back(sheet);
}

/* Tells the totals of a sheet at widths, in a slice of so many totals. */
static void try_widths(struct block sheet, const uint32_t *list, size_t count, size_t length) {
    struct block widths = copy_of(list, 4 * count), totals = take(4 * length);
    uint64_t answer = strip_totals(sheet.data, sheet.size, widths.data, count + widths_fault,
                                   totals.data, length + totals_fault);
    show_written("strip_totals", answer, totals, 4 * count_in(answer));
    give_back(totals);
    give_back(widths);
}

/* Tells the totals of a sheet at no width; at three widths, in slices of the same three lengths;
 * and at lists that are refused: for a width that is too great, before the slice that is too short,
 * and for their length, before their widths. */
static void try_totals(const struct item *item, const void *bytes) {
    static const uint32_t good[] = {4095, 0, 4095}, too_great[] = {0, 4096};
    uint32_t too_many[STRIP_MAX_WIDTHS + 1];
    for (size_t i = 0; i < COUNT(too_many); i++)
        too_many[i] = 4096;
    struct block sheet = copy_of(bytes, item->size);
    try_widths(sheet, good, 0, 0);
    for (size_t length = COUNT(good) - 1; length <= COUNT(good) + 1; length++)
        try_widths(sheet, good, COUNT(good), length);
    try_widths(sheet, too_great, COUNT(too_great), COUNT(too_great) - 1);
    try_widths(sheet, too_many, COUNT(too_many), COUNT(too_many));
    give_back(sheet);
}

/* Reads a sheet. */
static void try_read_sheet(const struct item *item, const void *bytes) {
    try_read("strip_read", strip_read, item, bytes);
}

/* Writes a sheet. */
static void try_write_sheet(const struct item *item, const void *bytes) {
    try_write("strip_write", strip_write, item, bytes);
}

/* Reads a coordinate file. */
static void try_read_drawing(const struct item *item, const void *bytes) {
    try_read("strip_read_drawing", strip_read_drawing, item, bytes);
}

/* Writes a coordinate file. */
static void try_write_drawing(const struct item *item, const void *bytes) {
    try_write("strip_write_drawing", strip_write_drawing, item, bytes);
}

/* What is tried with the items of each kind, in this order. */
static const struct {
    uint32_t kind;
    void (*run)(const struct item *item, const void *bytes);
} trials[] = {
    {SHEET, try_read_sheet},
    {SHEET, try_drawing},
    {SHEET, try_check},
    {SHEET, try_narrowest},
    {SHEET, try_totals},
    {NUMBERS, try_write_sheet},
    {COORDINATES, try_read_drawing},
    {COORDINATE_NUMBERS, try_write_drawing},
};

/* Makes all calls for an item. */
static void try_item(const struct item *item, const void *bytes) {
    int count = 0;
    for (size_t i = 0; i < COUNT(trials); i++) {
        if (trials[i].kind == item->kind) {
            trials[i].run(item, bytes);
            count++;
        }
    }
    if (count == 0)
        fail("there is no such kind of item");
}

/* Takes every item from a file. */
static void try_file(FILE *file) {
    struct item item;
    while (fread(&item, sizeof item, 1, file) == 1) {
        void *bytes = malloc(item.size + 1);
        if (bytes == NULL || fread(bytes, 1, item.size, file) != item.size)
            fail("the file ends within an item");
        try_item(&item, bytes);
        free(bytes);
    }
}

/* Takes the placement from its name. */
static void set_placement(const char *name) {
    if (strcmp(name, "heap") == 0)
        placement = HEAP;
    else if (strcmp(name, "before") == 0)
        placement = BEFORE;
    else if (strcmp(name, "behind") == 0)
        placement = BEHIND;
    else
        fail("the placement is heap, before or behind");
}

/* Takes the fault from its name. */
static void set_fault(const char *name) {
    read_fault = strcmp(name, "read") == 0;
    write_fault = strcmp(name, "write") == 0;
    widths_fault = strcmp(name, "widths") == 0;
    totals_fault = strcmp(name, "totals") == 0;
    undefined_fault = strcmp(name, "undefined") == 0;
    if (!read_fault && !write_fault && !widths_fault && !totals_fault && !undefined_fault &&
        strcmp(name, "none") != 0)
        fail("the fault is none, read, write, widths, totals or undefined");
}

/* Takes the arguments and tries the file. */
int main(int count, char **arguments) {
    if (count != 4)
        fail("give a placement, a fault and a file");
    set_placement(arguments[1]);
    set_fault(arguments[2]);
    FILE *file = fopen(arguments[3], "rb");
    if (file == NULL)
        fail("the file cannot be opened");
    try_file(file);
    fclose(file);
    return 0;
}
