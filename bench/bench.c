/* Nanoseconds of processor time for each call of the library, in a thread with a stack of 256 KB.
   bench check FOLDER NAME...: checks of FOLDER/NAME. bench pages FOLDER NAME...: the same on pages. bench run FOLDER NAME...: runs of
   FOLDER/NAME.goal over FOLDER/NAME.sheet.
   `reading` is the same call with a last line that is refused, so that the texts are read and nothing more. Each figure is the least
   of up to ROUNDS, each over some 10 ms of calls or one call; after SECONDS no further round is started. */
#include "roketuma.h"
#include <pthread.h>
#include <stdio.h>
#include <stdlib.h>
#include <string.h>
#include <time.h>

enum { ROUNDS = 15, SECONDS = 3, STACK = 256 * 1024, TEXT_ROOM = 20000 };
static int count, checks, paged;
static char **names;
static const char *folder;

/* The texts of a call; the goal's is unused in a check. */
struct texts {
    uint8_t program[TEXT_ROOM], goal[TEXT_ROOM];
    size_t program_len, goal_len;
};

static double now(void)
{
    struct timespec t;
    clock_gettime(CLOCK_THREAD_CPUTIME_ID, &t);
    return t.tv_sec * 1e9 + t.tv_nsec;
}

static size_t read_file(const char *name, const char *end, uint8_t *buffer)
{
    char path[4096];
    snprintf(path, sizeof path, "%s/%s%s", folder, name, end);
    FILE *file = fopen(path, "rb");
    if (!file) {
        perror(path);
        exit(1);
    }
    size_t n = fread(buffer, 1, TEXT_ROOM - 2, file);
    fclose(file);
    return n;
}

static uint64_t call(const struct texts *t, uint8_t *output)
{
    if (paged)
        return roketuma_pages(t->program, t->program_len, output, ROKETUMA_PAGES_ROOM);
    if (checks)
        return roketuma_check(t->program, t->program_len, output, ROKETUMA_ROOM);
    return roketuma_run(t->program, t->program_len, t->goal, t->goal_len, output, ROKETUMA_ROOM);
}

/* Nanoseconds of one call. */
static double measure(const struct texts *t, uint8_t *output)
{
    double best = 1e18, began = now();
    long calls = 1;
    for (int round = 0; round < ROUNDS && (round == 0 || now() - began < SECONDS * 1e9);) {
        double start = now();
        for (long i = 0; i < calls; i++)
            call(t, output);
        double spent = now() - start;
        if (spent < 1e7) {
            calls *= 2;
            continue;
        }
        if (spent / calls < best)
            best = spent / calls;
        round++;
    }
    return best;
}

/* The first line of what is answered. */
static void first_line(uint64_t r, const uint8_t *output, char *line, size_t room)
{
    if (roketuma_is_refusal(r))
        snprintf(line, room, "REFUSED,%u,%c,%u", roketuma_number(r), roketuma_text(r), roketuma_line(r));
    else
        snprintf(line, room, "%.*s", (int)strcspn((const char *)output, paged ? " " : "\n"), (const char *)output);
}

static void *work(void *unused)
{
    static struct texts t;
    static uint8_t output[ROKETUMA_PAGES_ROOM];
    (void)unused;
    printf("%-15s %18s %8s %14s %14s\n", checks ? "program" : "goal", "answer", "listing", checks ? "ns per check" : "ns per run",
           "ns reading");
    for (int i = 0; i < count; i++) {
        t.program_len = read_file(names[i], checks ? "" : ".sheet", t.program);
        t.goal_len = checks ? 0 : read_file(names[i], ".goal", t.goal);
        uint64_t r = call(&t, output);
        char answer[32];
        first_line(r, output, answer, sizeof answer);
        double whole = measure(&t, output);
        memcpy(checks ? t.program + t.program_len : t.goal + t.goal_len, "X\n", 2);
        *(checks ? &t.program_len : &t.goal_len) += 2;
        printf("%-15s %18s %8u %14.0f %14.0f\n", names[i], answer, (unsigned)roketuma_length(r), whole, measure(&t, output));
        fflush(stdout);
    }
    return NULL;
}

int main(int argc, char **argv)
{
    pthread_t thread;
    pthread_attr_t attributes;
    paged = argc > 1 && !strcmp(argv[1], "pages");
    checks = paged || (argc > 1 && !strcmp(argv[1], "check"));
    folder = argv[argc > 2 ? 2 : 0];
    names = argv + 3;
    count = argc - 3;
    pthread_attr_init(&attributes);
    if (argc < 4 || pthread_attr_setstacksize(&attributes, STACK) || pthread_create(&thread, &attributes, work, NULL)) {
        fprintf(stderr, "usage: bench check|pages|run FOLDER NAME...\n");
        return 1;
    }
    return pthread_join(thread, NULL);
}
