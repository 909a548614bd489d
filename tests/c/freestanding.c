/*
 * A program without a C library: it has the two functions that the library needs, draws document
 * 01's first sheet, has the drawing checked, and says so. It starts and ends by itself, as Linux on
 * x86-64 asks for.
 *
 * Exit status: 0 drawn and accepted, 1 not.
 */
#include <strip.h>

void *memcpy(void *to, const void *from, size_t count);
void *memset(void *to, int byte, size_t count);
int run(void);

/* Document 01's first sheet. */
static const uint8_t sheet[] = {0x53, 0x50, 0x31, 5, 2, 2, 1, 0, 1, 2, 1, 1, 1, 0, 1, 2, 1, 0};

/* Copies bytes. */
void *memcpy(void *to, const void *from, size_t count) {
    unsigned char *target = to;
    const unsigned char *source = from;

    while (count-- > 0)
        *target++ = *source++;
    return to;
}

/* Sets bytes. */
void *memset(void *to, int byte, size_t count) {
    unsigned char *target = to;

    while (count-- > 0)
        *target++ = (unsigned char)byte;
    return to;
}

/* Writes a text to the standard output: Linux's call 1. */
static void print(const char *text, long length) {
    long result;

    __asm__ volatile("syscall"
                     : "=a"(result)
                     : "a"(1L), "D"(1L), "S"(text), "d"(length)
                     : "rcx", "r11", "memory");
    (void)result;
}

/* Draws and checks; the exit status. */
int run(void) {
    static const char text[] = "total 1, checked\n";
    uint16_t places[3];
    int32_t list[8];

    if (strip_draw(sheet, sizeof sheet, places, 3, list, 8) != 1)
        return 1;
    if (places[0] != 0 || places[1] != 1 || places[2] != 0)
        return 1;
    if (strip_check(sheet, sizeof sheet, places, 3, list, 8) != 1)
        return 1;
    print(text, sizeof text - 1);
    return 0;
}

/* Where the program starts, with the stack aligned; it ends with the status that run gives: Linux's
 * call 60. */
__asm__(".globl _start\n"
        "_start:\n"
        "    xor %ebp, %ebp\n"
        "    call run\n"
        "    mov %eax, %edi\n"
        "    mov $60, %eax\n"
        "    syscall\n");
