/* Prints the lines of a book file, through libexports.a.
   usage: grow BOOK
   A book file is what the program `lines` reads and `cue --book` writes: the book's u64s little-endian, then the bytes of
   the names. How many lines or bytes of text there will be is not known beforehand, so slices begin small and double on
   a 20. */
#include <inttypes.h>
#include <stdio.h>
#include <stdlib.h>
#include "mivolanjy.h"

enum { NO_ROOM = 20, FIRST_LINES = 64, FIRST_TEXT = 1024 };

/* Document 01's words, by number. */
static const char *const refusals[] = {
    "accepted",
    "book or counter breaks 'The book'",
    "names or their count break 'The book'",
    "kind 37; callee starting llvm. or marked reserved",
    "work slice too short",
    "result name missing",
    "measured type is opaque, undefined, function, label or metadata",
    "type or part measured above 2^24 bytes or 64 levels; fixed frame above 2^31",
    "over 65,535 slots",
    "integer or pointer type expected",
    "operand is an unknown local",
    "load or store not of 1, 2, 4 or 8 bytes",
    "atomic type not of 8 bytes",
    "sign extension rejected",
    "getelementptr step: no aggregate, field not constant, or field out of range",
    "call: over 255 arguments, function not defined, or target neither global nor local",
    "extractvalue of no local, of a name without slot, or index above 1",
    "branch to unknown block",
    "phi lacks the predecessor",
    "condition without false target",
    "lines or text don't fit",
    "printer: unknown line kind, or an operand that its kind doesn't allow",
};

/* A book and its names, as they are lent. */
struct book {
    uint64_t *words;
    size_t length;
    uint8_t *names;
    size_t names_length;
};

struct lines {
    uint16_t *kinds;
    uint64_t *operands;
    uint64_t count;
};

struct text {
    uint8_t *bytes;
    uint64_t count;
};

static void fail(const char *reason)
{
    fprintf(stderr, "grow: %s\n", reason);
    exit(2);
}

/* Elements of 0, at least one: a lent pointer is never null. calloc sees to products that don't fit. */
static void *room(size_t count, size_t size)
{
    void *new = calloc(count > 0 ? count : 1, size);

    if (new == NULL)
        fail("no memory");
    return new;
}

static size_t twice(size_t count)
{
    if (count > SIZE_MAX / 2)
        fail("no memory");
    return 2 * count;
}

/* All bytes of a file. */
static uint8_t *read_file(const char *path, size_t *length)
{
    FILE *file = fopen(path, "rb");
    size_t most = 4096, got;
    uint8_t *bytes, *longer;

    if (file == NULL)
        fail("the book can't be opened");
    bytes = room(most, 1);
    *length = 0;
    while ((got = fread(bytes + *length, 1, most - *length, file)) > 0) {
        *length += got;
        if (*length == most) {
            most = twice(most);
            longer = realloc(bytes, most);
            if (longer == NULL)
                fail("no memory");
            bytes = longer;
        }
    }
    if (ferror(file))
        fail("the book can't be read");
    fclose(file);
    return bytes;
}

static uint64_t word_at(const uint8_t *bytes)
{
    uint64_t word = 0;
    int place;

    for (place = 8; place > 0; place--)
        word = word << 8 | bytes[place - 1];
    return word;
}

/* Where the words end is told by the first of them, the number of entries. A file that is too short for them becomes a
   book that is cut off, which is refused with 1: nothing that the file says is believed here. */
static struct book read_book(const char *path)
{
    struct book book;
    size_t length, place;
    uint8_t *bytes = read_file(path, &length);

    book.length = length / 8;
    if (book.length >= 2 && word_at(bytes) <= (book.length - 2) / 2)
        book.length = 2 + 2 * (size_t)word_at(bytes);
    book.words = room(book.length, sizeof *book.words);
    for (place = 0; place < book.length; place++)
        book.words[place] = word_at(bytes + 8 * place);
    book.names_length = length - 8 * book.length;
    book.names = room(book.names_length, 1);
    for (place = 0; place < book.names_length; place++)
        book.names[place] = bytes[8 * book.length + place];
    free(bytes);
    return book;
}

/* 8 words for each name and 64 more. Names are counted by their ends; where the book says another number, that is a 2. */
static size_t work_length(const struct book *book)
{
    size_t names = 0, place;

    for (place = 0; place < book->names_length; place++)
        names += book->names[place] == '\n';
    return 8 * names + 64;
}

/* Line slices that a 20 doubles. Any other answer is the last. */
static uint64_t translate(const struct book *book, struct lines *lines)
{
    size_t most = FIRST_LINES, length = work_length(book);
    uint64_t *work = room(length, sizeof *work);
    uint64_t number, next;

    for (;;) {
        lines->kinds = room(most, sizeof *lines->kinds);
        lines->operands = room(most, sizeof *lines->operands);
        number = mivolanjy_translate(book->words, book->length, book->names, book->names_length, 0, work, length,
                                     lines->kinds, most, lines->operands, most, &lines->count, &next);
        if (number != NO_ROOM)
            break;
        free(lines->kinds);
        free(lines->operands);
        most = twice(most);
    }
    free(work);
    return number;
}

static uint64_t print(const struct book *book, const struct lines *lines, struct text *text)
{
    size_t most = FIRST_TEXT;
    uint64_t number;

    for (;;) {
        text->bytes = room(most, 1);
        number = mivolanjy_print(book->words, book->length, book->names, book->names_length, lines->kinds, lines->count,
                                 lines->operands, lines->count, text->bytes, most, &text->count);
        if (number != NO_ROOM)
            return number;
        free(text->bytes);
        most = twice(most);
    }
}

/* Writes the text; 1 where it can't be written. */
static int write_text(const struct text *text)
{
    return fwrite(text->bytes, 1, text->count, stdout) != text->count || fflush(stdout) != 0;
}

static int refused(const char *call, uint64_t number)
{
    const size_t known = sizeof refusals / sizeof *refusals;

    fprintf(stderr, "grow: %s: refused with %" PRIu64 ": %s\n", call, number,
            number < known ? refusals[number] : "no number of document 01");
    return 1;
}

int main(int count, char **arguments)
{
    struct book book;
    struct lines lines;
    struct text text;
    uint64_t number;
    int status;

    if (count != 2)
        fail("usage: grow BOOK");
    book = read_book(arguments[1]);
    number = translate(&book, &lines);
    if (number != 0) {
        status = refused("translate", number);
    } else {
        number = print(&book, &lines, &text);
        status = number != 0 ? refused("print", number) : write_text(&text);
        free(text.bytes);
    }
    free(lines.kinds);
    free(lines.operands);
    free(book.words);
    free(book.names);
    return status;
}
