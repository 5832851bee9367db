/* Calls the functions of the library with guard bytes around every buffer, on listings, pages and refusals, and in every room from
   0 bytes to one more than the listing has, or its pages. Prints what each call returned; ends with 1 where a byte or an answer is
   not as it must be. */
#include "roketuma.h"
#include <stdio.h>
#include <string.h>

enum { GUARD = 64, TEXT_ROOM = 20000, ROOM = 5120 };
static int faults;

/* A text, and a text between guards. */
struct text {
    const char *bytes;
    size_t length;
};

struct lent {
    uint8_t bytes[GUARD + TEXT_ROOM + GUARD];
};

/* The output of the last call, between guards. */
static uint8_t output[GUARD + ROOM + GUARD];

static void lend(struct lent *l, const struct text *text)
{
    memset(l->bytes, 0xa5, sizeof l->bytes);
    if (text)
        memcpy(l->bytes + GUARD, text->bytes, text->length);
}

static void fault(const char *what, const char *why)
{
    printf("%s: %s\n", what, why);
    faults++;
}

/* A check of a program, whose listing is put down as it is or on pages. */
typedef uint64_t checks(const uint8_t *, size_t, uint8_t *, size_t);

/* One call, such a check where there is no goal: both texts must stay as they were, and the output outside the listing too. Where
   there is a goal, reading must answer 0, or the refusal of the run. */
static uint64_t call(const char *what, checks *check, struct text program, const struct text *goal, size_t room)
{
    static struct lent a, b, before_a, before_b;
    static uint8_t before[GUARD + ROOM + GUARD];
    lend(&a, &program);
    lend(&b, goal);
    before_a = a;
    before_b = b;
    memset(output, 0x5a, sizeof output);
    memcpy(before, output, sizeof output);
    uint64_t r = goal ? roketuma_run(a.bytes + GUARD, program.length, b.bytes + GUARD, goal->length, output + GUARD, room)
                      : check(a.bytes + GUARD, program.length, output + GUARD, room);
    uint64_t read = goal ? roketuma_read(a.bytes + GUARD, program.length, b.bytes + GUARD, goal->length) : 0;
    if (goal && read != (roketuma_is_refusal(r) && roketuma_number(r) < 11 ? r : 0))
        fault(what, "reading answers something else");
    size_t written = roketuma_length(r);
    if (memcmp(&a, &before_a, sizeof a) || memcmp(&b, &before_b, sizeof b) || written > room
        || memcmp(output, before, GUARD) || memcmp(output + GUARD + written, before + GUARD + written, ROOM - written + GUARD))
        fault(what, "a byte changed that must not");
    if (roketuma_is_pass(r) + roketuma_is_overlap(r) + roketuma_is_refusal(r) != 1)
        fault(what, "an answer that is not one of three");
    return r;
}

static void show(const char *what, uint64_t r)
{
    if (roketuma_is_refusal(r))
        printf("%s: refused %u %c %u\n", what, roketuma_number(r), roketuma_text(r), roketuma_line(r));
    else
        printf("%s: %u bytes%s\n", what, (unsigned)roketuma_length(r), roketuma_is_overlap(r) ? ", an overlap" : "");
}

/* The same call in every room: number 11 where the listing does not fit, otherwise the answer and the listing of the large room,
   which it answers. */
static uint64_t rooms(const char *what, checks *check, struct text program, const struct text *goal)
{
    static uint8_t listing[ROOM];
    uint64_t whole = call(what, check, program, goal, ROOM);
    uint64_t short_room = ((uint64_t)11 << 32) + ((uint64_t)(goal ? 'G' : 'S') << 16);
    size_t length = roketuma_length(whole), last = roketuma_is_refusal(whole) ? GUARD : length + 1;
    memcpy(listing, output + GUARD, length);
    show(what, whole);
    for (size_t room = 0; room <= last; room++) {
        uint64_t r = call(what, check, program, goal, room);
        if (r != (room < length ? short_room : whole) || memcmp(listing, output + GUARD, roketuma_length(r)))
            fault(what, "another answer in another room");
    }
    return whole;
}

/* A run, or a check and its pages, in every room: both refuse alike, or both pass, or both show an overlap on whole pages. */
static void every_room(const char *what, struct text program, const struct text *goal)
{
    uint64_t plain = rooms(what, roketuma_check, program, goal);
    if (goal)
        return;
    uint64_t pages = rooms("    its pages", roketuma_pages, program, NULL);
    if (roketuma_is_refusal(plain) ? pages != plain : pages >> 31 != plain >> 31 || roketuma_length(pages) % 2460)
        fault(what, "another answer for its pages");
}

#define TEXT(s) ((struct text){ s, sizeof s - 1 })
#define LEQ_HEAD "K,leq,2,1\n"
#define LEQ_TAIL "R,anti\nH,leq,X,Y\nH,leq,Y,X\nE,X,Y\nR,idem\nH,leq,X,Y\nH,leq,X,Y\nB,leq,X,Y\n"
#define KEPT "K,lit,1,1\nK,cue,1,2\nK,line,2,1\nR,call\nJ,lit,H\nH,cue,X\nB,line,H,X\n"
#define NEW "K,p,1,2\nK,q,1,1\nR,one\nH,p,X\nB,q,Y\n"
#define LONG "B,constr01,constan1,constan2,constan3,constan4\n"
#define MANY "K,p,1,31\nK,m,0,7\nK,constr01,4,1\nR,one\nH,p,X\nR,two\nH,p,X\nB,m\nB,m\nB,m\nB,m\n" LONG LONG

int main(void)
{
    static char many[TEXT_ROOM];
    memset(many, 'x', sizeof many);
    struct text leq = TEXT(LEQ_HEAD "R,refl\nH,leq,X,X\n" LEQ_TAIL), none = TEXT(""), long_text = { many, 16385 };
    struct text goal = TEXT("G,leq,A,B\nG,leq,B,A\nG,leq,A,c\n"), fails = TEXT("G,leq,a,b\nG,leq,b,a\n"), unknown = TEXT("G,p\n");
    struct text cue = TEXT("G,lit,a\nG,cue,B\n"), kept_goal = TEXT("J,lit,a\n"), digits = TEXT("G,lit,007\nG,cue,00\n");
    struct text letters = TEXT("G,p,B\nG,q,U\nG,p,A\n");
    every_room("a run", leq, &goal);
    every_room("a failed run", leq, &fails);
    every_room("a run, both empty", none, &none);
    every_room("a run, no line feed", TEXT("K,p,0,1"), &none);
    every_room("a run, 16,385 bytes", long_text, &none);
    every_room("a run, a goal of 16,385 bytes", leq, &long_text);
    every_room("a run, an undeclared symbol", leq, &unknown);
    every_room("a run, a rule without a head", TEXT("K,p,0,1\nR,r\nE,a,a\n"), &none);
    every_room("a run, a kept constraint", TEXT(KEPT), &cue);
    every_room("a run, a goal's J line", TEXT(KEPT), &kept_goal);
    every_room("a run, leading zeros", TEXT(KEPT), &digits);
    every_room("a run, new variables", TEXT(NEW), &letters);
    every_room("a pass", leq, NULL);
    every_room("a pass, empty", none, NULL);
    every_room("an overlap", TEXT(LEQ_HEAD LEQ_TAIL), NULL);
    every_room("an overlap, one end failed", TEXT("K,p,0,1\nR,one\nH,p\nE,a,b\nR,two\nH,p\n"), NULL);
    every_room("an overlap, kept constraints", TEXT(KEPT), NULL);
    every_room("an overlap, leading zeros", TEXT("K,p,1,2\nK,q,1,1\nR,7\nH,p,07\nB,q,00\nR,07\nH,p,7\n"), NULL);
    every_room("an overlap, new variables", TEXT(NEW "R,two\nH,p,X\nB,q,X\n"), NULL);
    every_room("an overlap, two pages", TEXT(MANY "R,m\nH,m\n" LONG LONG LONG LONG LONG LONG), NULL);
    every_room("a check, no line feed", TEXT("K,p,0,1"), NULL);
    every_room("a check, 16,385 bytes", long_text, NULL);
    every_room("a check, an undeclared symbol", TEXT("K,p,0,1\nR,r\nH,q\n"), NULL);
    every_room("a check, a rule without a head", TEXT("K,p,0,1\nR,r\nE,a,a\n"), NULL);
    every_room("a check, a rule with J lines only", TEXT("K,p,0,1\nR,r\nJ,p\n"), NULL);
    every_room("a check, heads no heavier than the body", TEXT("K,p,0,1\nR,r\nH,p\nB,p\n"), NULL);
    every_room("a check, a goal's line", TEXT(LEQ_HEAD "G,leq,A,B\n"), NULL);
    return faults != 0;
}
