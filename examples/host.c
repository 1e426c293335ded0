/* Asks whether the file on standard input is a run file: prints 0, or the number of its first fault. */
#include <stdio.h>

#include "tinzurpa.h"

int main(void)
{
    /* A run file has at most 40,000 bytes: a larger file is refused whatever follows. */
    static uint8_t file[40001];
    size_t length = fread(file, 1, sizeof file, stdin);
    if (ferror(stdin)) {
        perror("host");
        return 1;
    }
    printf("%lu\n", (unsigned long)tinzurpa_check(file, length));
    return 0;
}
