/* Roketuma: checks Constraint Handling Rules programs for confluence, and runs goals over them. The static library is
   crates/roketuma_c/out/libroketuma_c.a, which `rt lib` in crates/roketuma_c writes; what a call does is proved, see README.md.
   x86-64 Linux.

   In every call any bytes of any length may be handed in. Each pointer must be valid for its length, and not null; the output
   must overlap no text. A call uses no heap and keeps nothing between calls.

   A call returns one number, of which the functions below take the parts. It is the length of the listing, or of its pages, which
   is then in the front of the output, the bytes behind it being as they were; or a refusal, with document 01's number (1 to 11),
   the text ('S' for the program's, 'G' for the goal's) and the line counted from 1 (0 where no line is meant), every byte of the
   output being as it was. */
#ifndef ROKETUMA_H
#define ROKETUMA_H

#include <stdbool.h>
#include <stddef.h>
#include <stdint.h>

#ifdef __cplusplus
extern "C" {
#endif

/* Checks the program for confluence: whether each goal over its symbols, of any length, has one outcome, in whatever order
   constraints enter and rules fire. The listing is that of a pass, with the number of overlaps, or of the earliest
   unjoined overlap: its goal with two finished derivations whose ends are not equal.

   Returns the length of a pass's listing; 2^31 more than the length of an unjoined overlap's; or a refusal, from 2^32 on:
   2^32 * number + 2^16 * text + line. */
uint64_t roketuma_check(const uint8_t *program, size_t program_len, uint8_t *output, size_t output_len);

/* Checks the program, and lays its listing out on pages of 40 columns and 60 lines, 2,460 bytes each: line 1 of a page has the
   listing's first field and the page's number, line 2 is blank, and a line of more than 40 bytes continues on the next behind two
   spaces. No listing of a check takes more than 17 pages. Number 11 is answered where the pages do not fit the output.

   Returns what roketuma_check does, with the length of the pages. */
uint64_t roketuma_pages(const uint8_t *program, size_t program_len, uint8_t *output, size_t output_len);

/* Runs the goal over the program. Returns the length of the listing, below 2^31, or a refusal as above. */
uint64_t roketuma_run(const uint8_t *program, size_t program_len, const uint8_t *goal, size_t goal_len,
                      uint8_t *output, size_t output_len);

/* Whether the program's text and the goal's can be read; either may be empty. Returns 0 where they can, or the refusal, numbers 1
   to 10, that a run of them returns. Nothing is lent to write into. */
uint64_t roketuma_read(const uint8_t *program, size_t program_len, const uint8_t *goal, size_t goal_len);

/* Room for every listing, and for the pages of every listing of a check. */
#define ROKETUMA_ROOM 32768
#define ROKETUMA_PAGES_ROOM 41820

/* Whether a text was refused. */
static inline bool roketuma_is_refusal(uint64_t r)
{
    return r >> 32 != 0;
}

/* Whether a check shows an unjoined overlap: the program is not confluent. */
static inline bool roketuma_is_overlap(uint64_t r)
{
    return r >> 31 == 1;
}

/* Whether a check passes the program: it is confluent. */
static inline bool roketuma_is_pass(uint64_t r)
{
    return r >> 31 == 0;
}

/* The length of the listing; 0 for a refusal. */
static inline size_t roketuma_length(uint64_t r)
{
    return roketuma_is_refusal(r) ? 0 : (size_t)(r & 0x7fffffff);
}

/* A refusal's number, its text and its line. */
static inline unsigned roketuma_number(uint64_t r)
{
    return (unsigned)(r >> 32);
}

static inline char roketuma_text(uint64_t r)
{
    return (char)(r >> 16 & 0xff);
}

static inline unsigned roketuma_line(uint64_t r)
{
    return (unsigned)(r & 0xffff);
}

/* What a refusal's number means, in words; docs/FORMAT.md has each with its definition and an example. */
static inline const char *roketuma_words(unsigned number)
{
    switch (number) {
    case 1: return "the text is longer than 16,384 bytes";
    case 2: return "the line is empty, is longer than 80 bytes, lacks its line feed, "
                   "or holds a byte that is no letter, digit or comma";
    case 3: return "the first field is no letter that may stand there";
    case 4: return "the count of fields, or the form of a field, is wrong";
    case 5: return "the name of a symbol or a rule is repeated";
    case 6: return "the symbol was not declared, or has another number of terms";
    case 7: return "the line would pass one of the limits on counts";
    case 8: return "the rule has no H line";
    case 9: return "the H lines of the rule do not weigh more than its B lines";
    case 10: return "the goal weighs more than 512";
    case 11: return "the lent output is shorter than the listing, or than its pages";
    default: return "no refusal";
    }
}

#ifdef __cplusplus
}
#endif

#endif
