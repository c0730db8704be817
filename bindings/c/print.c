/* Prints what the program `replay` prints for standard input, by the archive. */
#include "../../include/crafty.h"

#include <stdio.h>
#include <stdlib.h>

/* One byte more than an input may have, so that a longer one is seen to be too long. */
enum { INPUT_MOST = 65537 };

int main(void)
{
    static uint8_t input[INPUT_MOST];
    size_t length = fread(input, 1, sizeof input, stdin);
    if (ferror(stdin)) {
        perror("print: the input could not be read; nothing was judged");
        return 1;
    }

    crafty_answer asked = crafty_print(input, length, NULL, 0);
    if (asked.number != CRAFTY_NO_ROOM) return 1;
    uint8_t *text = malloc(asked.value);
    if (text == NULL) return 1;
    crafty_answer printed = crafty_print(input, length, text, asked.value);
    if (printed.number != CRAFTY_SUCCESS) return 1;
    fwrite(text, 1, printed.value, stdout);
    free(text);
    return 0;
}
