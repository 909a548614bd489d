/* Prints the numbers up to 12, each with the text of the refusal. It is C and C++. */
#include <stdio.h>
#include <strip.h>

int main(void) {
    uint32_t number;

    for (number = 0; number <= 12; number++)
        printf("%u %s\n", number, strip_refusal_text(number));
    return 0;
}
