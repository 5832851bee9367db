/* Prints the check of a program on pages of 40 columns and 60 lines: pages PROGRAM. Prints a refusal as `sheetcheck` does.
   Ends with 0 for a pass, 1 for an unjoined overlap and 2 for a refusal. */
#include "roketuma.h"
#include <stdio.h>

int main(int argc, char **argv)
{
    static uint8_t program[16385], output[ROKETUMA_PAGES_ROOM]; /* 16,385 bytes are enough for number 1 */
    FILE *file = argc == 2 ? fopen(argv[1], "rb") : NULL;
    if (!file) {
        fprintf(stderr, "usage: pages PROGRAM\n");
        return 2;
    }
    size_t length = fread(program, 1, sizeof program, file);
    fclose(file);
    uint64_t r = roketuma_pages(program, length, output, sizeof output);
    if (roketuma_is_refusal(r)) {
        printf("REFUSED,%u,%c,%u\n", roketuma_number(r), roketuma_text(r), roketuma_line(r));
        return 2;
    }
    fwrite(output, 1, roketuma_length(r), stdout);
    return roketuma_is_pass(r) ? 0 : 1;
}
