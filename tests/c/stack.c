/*
 * The stack that the functions of the library use, on the sheets of the files given.
 *
 * Each call runs on a stack of its own that is painted before and looked through after. Prints the
 * greatest use of each function in bytes. The same calls also run on a thread whose stack has the
 * size that strip.h says, and what the thread library needs.
 */
#define _XOPEN_SOURCE 700
#undef NDEBUG
#include <assert.h>
#include <limits.h>
#include <pthread.h>
#include <stdio.h>
#include <string.h>
#include <strip.h>
#include <ucontext.h>

/* The byte of the paint, and the size of the painted stack. */
enum { PAINT = 0xa5, ROOM = 4 * STRIP_STACK_BYTES };

/* The sheet, and room for all that the functions write. */
static uint8_t sheet[STRIP_MAX_SHEET_BYTES + 1];
static size_t sheet_len;
static uint16_t numbers[STRIP_MAX_NUMBERS];
static size_t numbers_len;
static uint8_t written[STRIP_MAX_SHEET_BYTES];
static uint16_t places[STRIP_MAX_PLACES];
static int32_t list[STRIP_MAX_LIST];
static uint16_t drawing[STRIP_MAX_DRAWING_NUMBERS];
static size_t drawing_len;
static uint8_t file[STRIP_MAX_DRAWING_BYTES];
static size_t file_len;
static uint32_t total;
static uint32_t widths[3], totals[3];
static uint64_t answer;

/* Reads the sheet. */
static void call_read(void) {
    answer = strip_read(sheet, sheet_len, numbers, STRIP_MAX_NUMBERS);
    assert(strip_refusal(answer) == STRIP_OK);
    numbers_len = strip_value(answer);
}

/* Writes the numbers back. */
static void call_write(void) {
    answer = strip_write(numbers, numbers_len, written, STRIP_MAX_SHEET_BYTES);
    assert(answer == sheet_len);
}

/* Draws the sheet. */
static void call_draw(void) {
    answer = strip_draw(sheet, sheet_len, places, STRIP_MAX_PLACES, list, STRIP_MAX_LIST);
    assert(strip_refusal(answer) == STRIP_OK);
    total = strip_value(answer);
}

/* Checks the drawing. */
static void call_check(void) {
    answer = strip_check(sheet, sheet_len, places, STRIP_MAX_PLACES, list, STRIP_MAX_LIST);
    assert(answer == 1);
}

/* Tells the minimum width of the sheet. */
static void call_narrowest(void) {
    answer = strip_narrowest(sheet, sheet_len);
    assert(strip_refusal(answer) == STRIP_OK);
}

/* Tells the totals of the sheet at its own width, at one without a drawing, and at the greatest. */
static void call_totals(void) {
    widths[0] = numbers[0];
    widths[1] = 0;
    widths[2] = 4095;
    answer = strip_totals(sheet, sheet_len, widths, 3, totals, 3);
    assert(answer == 3);
    assert(totals[0] == total && totals[1] == STRIP_NO_TOTAL && totals[2] <= total);
}

/* Lists the numbers of the drawing's coordinate file: the count of layers, each with its places. */
static void list_drawing(void) {
    size_t at = 2, node = 0;
    int layer, position;

    drawing_len = 0;
    drawing[drawing_len++] = numbers[1];
    for (layer = 0; layer < numbers[1]; layer++) {
        drawing[drawing_len++] = numbers[at];
        for (position = 0; position < numbers[at]; position++)
            drawing[drawing_len++] = places[node++];
        at += 2u * numbers[at] - 1;
    }
}

/* Writes the coordinate file of the drawing. */
static void call_write_drawing(void) {
    list_drawing();
    answer = strip_write_drawing(drawing, drawing_len, file, STRIP_MAX_DRAWING_BYTES);
    assert(strip_refusal(answer) == STRIP_OK);
    file_len = strip_value(answer);
}

/* Reads the coordinate file. */
static void call_read_drawing(void) {
    answer = strip_read_drawing(file, file_len, drawing, STRIP_MAX_DRAWING_NUMBERS);
    assert(answer == drawing_len);
}

/* Tells the version. */
static void call_version(void) {
    assert(strip_version() > 0);
}

/* All calls, in an order in which each finds what it takes; with the greatest use of the stack. */
static struct {
    const char *name;
    void (*run)(void);
    size_t greatest;
} calls[] = {
    {"strip_read", call_read, 0},
    {"strip_write", call_write, 0},
    {"strip_draw", call_draw, 0},
    {"strip_check", call_check, 0},
    {"strip_narrowest", call_narrowest, 0},
    {"strip_totals", call_totals, 0},
    {"strip_write_drawing", call_write_drawing, 0},
    {"strip_read_drawing", call_read_drawing, 0},
    {"strip_version", call_version, 0},
};

/* How many calls there are. */
enum { CALLS = sizeof calls / sizeof *calls };

/* How many bytes of stack a call uses. */
static size_t use(void (*call)(void)) {
    static unsigned char stack[ROOM];
    static ucontext_t here, there;
    size_t untouched = 0;

    memset(stack, PAINT, sizeof stack);
    assert(getcontext(&there) == 0);
    there.uc_stack.ss_sp = stack;
    there.uc_stack.ss_size = sizeof stack;
    there.uc_link = &here;
    makecontext(&there, call, 0);
    assert(swapcontext(&here, &there) == 0);
    while (untouched < sizeof stack && stack[untouched] == PAINT)
        untouched++;
    return sizeof stack - untouched;
}

/* Reads a sheet from a file. */
static void load(const char *path) {
    FILE *stream = fopen(path, "rb");
    assert(stream != NULL);
    sheet_len = fread(sheet, 1, sizeof sheet, stream);
    assert(ferror(stream) == 0 && fclose(stream) == 0);
}

/* Runs all calls on the sheet. */
static void *run_all(void *nothing) {
    int i;

    for (i = 0; i < CALLS; i++)
        calls[i].run();
    return nothing;
}

/* Runs all calls on a thread whose stack is no larger than strip.h asks for. */
static void run_on_thread(void) {
    pthread_attr_t attributes;
    pthread_t thread;

    assert(pthread_attr_init(&attributes) == 0);
    assert(pthread_attr_setstacksize(&attributes, STRIP_STACK_BYTES + PTHREAD_STACK_MIN) == 0);
    assert(pthread_create(&thread, &attributes, run_all, NULL) == 0);
    assert(pthread_join(thread, NULL) == 0);
    assert(pthread_attr_destroy(&attributes) == 0);
}

/* Runs each call on a painted stack, and keeps its greatest use. */
static void measure(void) {
    int i;

    for (i = 0; i < CALLS; i++) {
        size_t used = use(calls[i].run);
        assert(used <= STRIP_STACK_BYTES);
        if (used > calls[i].greatest)
            calls[i].greatest = used;
    }
}

/* Takes the paths of sheets that have drawings. */
int main(int count, char **paths) {
    int i;

    for (i = 1; i < count; i++) {
        load(paths[i]);
        measure();
        run_on_thread();
    }
    for (i = 0; i < CALLS; i++)
        printf("%s %zu\n", calls[i].name, calls[i].greatest);
    return 0;
}
