/* Checks, translates and prints `i32 @add1(i32 %a)`, document 01's first sheet, through libexports.a. */
#include <inttypes.h>
#include <stdio.h>
#include "mivolanjy.h"

enum { NAMES = 4, WORK = 8 * NAMES + 64, LINES = 16, TEXT = 256 };

/* 15 entries and 4 names; the kinds, then the words. */
static const uint64_t book[] = {
    15, NAMES,
    5, 11, 6, 11, 0, /* function, i32, parameter, i32, end of the parameters */
    7,               /* block */
    40, 11, 30, 32,  /* add, i32, local, integer */
    90, 11, 30,      /* ret, i32, local */
    0, 0,            /* end of the blocks, end of the functions */
    1, 32, 1, 32, 0, /* add1, width, a (its number + 1), width */
    2,               /* entry */
    4, 32, 0, 1,     /* r (its number + 1), width, a, 1 */
    0, 32, 3,        /* width, r */
    0, 0,
};
static const uint8_t names[] = "a\nadd1\nentry\nr\n";

static int refused(const char *call, uint64_t number)
{
    if (number != 0)
        fprintf(stderr, "%s: refused with %" PRIu64 "\n", call, number);
    return number != 0;
}

int main(void)
{
    const size_t words = sizeof book / sizeof *book, bytes = sizeof names - 1;
    static uint64_t work[WORK], operands[LINES];
    static uint16_t kinds[LINES];
    static uint8_t text[TEXT];
    uint64_t count, next, length;

    if (refused("check", mivolanjy_check(book, words, names, bytes, 0, WORK)))
        return 1;
    if (refused("translate", mivolanjy_translate(book, words, names, bytes, 0, work, WORK, kinds, LINES,
                                                 operands, LINES, &count, &next)))
        return 1;
    if (refused("print", mivolanjy_print(book, words, names, bytes, kinds, count, operands, count, text, TEXT,
                                         &length)))
        return 1;
    return fwrite(text, 1, length, stdout) != length;
}
