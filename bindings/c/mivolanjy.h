/* The functions of libexports.a, which `tools/library` writes to target/staticlib.

   A lent slice is a pointer and the number of its elements. The pointer is never null, not even for a
   slice of length 0, and is aligned for its elements. What is written (work, kinds and operands of the
   translator; text; lines, next, count) overlaps nothing else that is lent. Nothing is kept after a call. Numbers
   are those of document 01's table of replies. */
#ifndef MIVOLANJY_H
#define MIVOLANJY_H

#include <stddef.h>
#include <stdint.h>

/* The first of refusals 1 to 4 that applies to a book, its names, a label counter and the length of a
   work slice; 0 where none does. */
uint64_t mivolanjy_check(const uint64_t *book, size_t book_length,
                         const uint8_t *names, size_t names_length,
                         uint64_t counter, size_t work_length);

/* Translates a book's functions in their order, each beginning with the label counter that the last one left:
   0 with *lines lines from the start of kinds and operands, the rest of both unchanged, and *next the next
   label counter; or the refusal's number (1 to 20) with *lines 0, *next the given counter, and both unchanged.
   The first refusal is given, in the functions' order, and 20 after all others: the shorter of the two bounds
   the lines of all. The work slice needs 8 words for each name and 64 more (4); whatever its length, it is all
   zero after the call. */
uint64_t mivolanjy_translate(const uint64_t *book, size_t book_length,
                             const uint8_t *names, size_t names_length,
                             uint64_t counter,
                             uint64_t *work, size_t work_length,
                             uint16_t *kinds, size_t kinds_length,
                             uint64_t *operands, size_t operands_length,
                             uint64_t *lines, uint64_t *next);

/* Prints lines of a book's functions into the text: 0 with *count bytes written from the start of the text and
   the rest unchanged, or the refusal's number (1, 2, 21 or 20) with *count 0 and the text unchanged. A block's
   label or jump takes the function of the last comment line before it (21 where there is none). As many lines
   are taken as the shorter of the two line slices holds. */
uint64_t mivolanjy_print(const uint64_t *book, size_t book_length,
                         const uint8_t *names, size_t names_length,
                         const uint16_t *line_kinds, size_t line_kinds_length,
                         const uint64_t *operands, size_t operands_length,
                         uint8_t *text, size_t text_length,
                         uint64_t *count);

#endif
