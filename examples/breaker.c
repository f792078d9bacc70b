/* A line breaker: a text in lines of at most `width` characters, broken at spaces.
   Texts are UTF-8, and characters are counted, not bytes: a Czech line is as wide as it looks. */
#include <stdint.h>

struct span {
    uint32_t from, to; /* offsets of bytes; `to` is behind the last one */
};

/* Whether a character begins with this byte. */
static int begins(char byte)
{
    return (byte & 0xC0) != 0x80;
}

/* How many characters a span has. */
uint32_t characters(const char *text, struct span span)
{
    uint32_t count = 0;

    for (uint32_t i = span.from; i < span.to; i++)
        count += begins(text[i]);
    return count;
}

/* Where a line ends that starts at `from`, where no space is: before the last space, or run of spaces, that it reaches, or
   within a word that is wider than a line. */
uint32_t line_end(const char *text, uint32_t length, uint32_t from, uint32_t width)
{
    uint32_t count = 0, space = from;

    for (uint32_t i = from; i < length; i++) {
        if (text[i] == ' ' && text[i - 1] != ' ')
            space = i;
        if (begins(text[i]) && count++ == width)
            return space > from ? space : i;
    }
    return length;
}

/* Breaks the text into at most `most` lines, as full as they can be; answers how many there are. Spaces in front and at a
   break belong to no line. A width of 0 gives no line. */
uint32_t break_lines(const char *text, uint32_t length, uint32_t width, struct span *lines, uint32_t most)
{
    uint32_t from = 0, count = 0;

    if (width == 0)
        return 0;
    while (count < most) {
        while (from < length && text[from] == ' ')
            from++;
        if (from == length)
            break;
        lines[count].from = from;
        from = line_end(text, length, from, width);
        lines[count].to = from;
        count++;
    }
    return count;
}
