/* Runs a goal over a program: run PROGRAM GOAL. Prints the listing, or the refusal as `sheetrun` does. */
#include "roketuma.h"
#include <stdio.h>

/* Reads a file, as far as the buffer goes: 16,385 bytes are enough for number 1. */
static size_t read_file(const char *path, uint8_t *buffer, size_t room)
{
    FILE *file = fopen(path, "rb");
    if (!file) {
        perror(path);
        return 0;
    }
    size_t n = fread(buffer, 1, room, file);
    fclose(file);
    return n;
}

int main(int argc, char **argv)
{
    static uint8_t program[16385], goal[16385], output[ROKETUMA_ROOM];
    if (argc != 3) {
        fprintf(stderr, "usage: run PROGRAM GOAL\n");
        return 2;
    }
    size_t p = read_file(argv[1], program, sizeof program);
    size_t g = read_file(argv[2], goal, sizeof goal);
    uint64_t r = roketuma_run(program, p, goal, g, output, sizeof output);
    if (roketuma_is_refusal(r))
        printf("REFUSED,%u,%c,%u\n", roketuma_number(r), roketuma_text(r), roketuma_line(r));
    else
        fwrite(output, 1, roketuma_length(r), stdout);
    return 0;
}
