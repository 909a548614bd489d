/*
 * Tells libFuzzer which blocks of the library have run. The library is not compiled for coverage, so
 * the first byte of each block is replaced by a trap. The first time that a block runs, the trap
 * sets its counter and puts the byte back; from then on the block runs as it is.
 *
 * FUZZ_BLOCKS names a file with the address of strip_read in the program, then the address and the
 * name of each block. The file with `.missing` behind its name gets the blocks that never ran.
 */
#define _GNU_SOURCE
#include <signal.h>
#include <stdint.h>
#include <stdio.h>
#include <stdlib.h>
#include <string.h>
#include <sys/mman.h>
#include <ucontext.h>

enum { MOST = 4096, NAME = 80, PAGE = 4096, TRAP = 0xcc };

/* A function of the library, whose address shows where the program stands in memory. */
extern uint8_t strip_read[];

/* What libFuzzer looks at behind each input. */
__attribute__((section("__libfuzzer_extra_counters"))) static uint8_t counters[MOST];

/* A block: where it is, its first byte, whether it has run, its name. */
static struct {
    uint8_t *at;
    uint8_t first;
    int has_run;
    char name[NAME];
} blocks[MOST];
static size_t count;

/* Ends the program with one line that says why. */
static void fail(const char *why) {
    fprintf(stderr, "blocks: %s\n", why);
    exit(1);
}

/* Runs at a trap: counts the block, takes the trap away and goes on there. */
static void reached(int signal, siginfo_t *info, void *context) {
    (void)signal, (void)info;
    greg_t *next = &((ucontext_t *)context)->uc_mcontext.gregs[REG_RIP];
    for (size_t i = 0; i < count; i++)
        if (blocks[i].at + 1 == (uint8_t *)*next) {
            *blocks[i].at = blocks[i].first;
            *next -= 1;
            counters[i] = 1;
            blocks[i].has_run = 1;
            return;
        }
    abort();
}

/* Says at the end how many blocks have run, and writes down the others. */
static void report(void) {
    char path[4096];
    size_t run = 0;
    snprintf(path, sizeof path, "%s.missing", getenv("FUZZ_BLOCKS"));
    FILE *file = fopen(path, "w");
    for (size_t i = 0; i < count; i++) {
        run += blocks[i].has_run;
        if (!blocks[i].has_run && file != NULL)
            fprintf(file, "%s\n", blocks[i].name);
    }
    if (file != NULL)
        fclose(file);
    fprintf(stderr, "blocks of the library that have run: %zu of %zu\n", run, count);
}

/* Reads the blocks from a file. */
static void load(FILE *file) {
    unsigned long start, at;
    if (fscanf(file, "%lx", &start) != 1)
        fail("the file of blocks is empty");
    while (count < MOST && fscanf(file, "%lx %79s", &at, blocks[count].name) == 2) {
        blocks[count].at = strip_read + (long)(at - start);
        blocks[count].first = *blocks[count].at;
        count++;
    }
    if (count == 0 || count == MOST)
        fail("too few or too many blocks");
}

/* Puts a trap at the first byte of a block. */
static void set_trap(uint8_t *at) {
    void *page = (void *)((uintptr_t)at / PAGE * PAGE);
    if (mprotect(page, PAGE, PROT_READ | PROT_WRITE | PROT_EXEC) != 0)
        fail("the code cannot be changed");
    *at = TRAP;
}

/* What libFuzzer calls before the first input. */
int LLVMFuzzerInitialize(int *argc, char ***argv) {
    (void)argc, (void)argv;
    const char *path = getenv("FUZZ_BLOCKS");
    FILE *file = path == NULL ? NULL : fopen(path, "r");
    if (file == NULL)
        fail("FUZZ_BLOCKS names no file of blocks");
    load(file);
    fclose(file);
    struct sigaction action = {.sa_sigaction = reached, .sa_flags = SA_SIGINFO};
    if (sigaction(SIGTRAP, &action, NULL) != 0)
        fail("traps cannot be taken");
    for (size_t i = 0; i < count; i++)
        set_trap(blocks[i].at);
    atexit(report);
    return 0;
}
