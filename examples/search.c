/* A table of cues: found by bar number, and by name. */
#include <stddef.h>
#include <stdint.h>

int memcmp(const void *, const void *, size_t);

struct cue {
    uint16_t act;
    uint32_t bar;
    const char *name;
    size_t length;
    uint8_t colour[3];
};

/* The last cue at `bar` or before it; -1 if all come later. The cues ascend by their bars. */
int32_t at_bar(const struct cue *cues, int32_t count, uint32_t bar)
{
    int32_t low = 0, high = count;

    while (low < high) {
        int32_t middle = low + (high - low) / 2;

        if (cues[middle].bar <= bar)
            low = middle + 1;
        else
            high = middle;
    }
    return low - 1;
}

/* The cue of this name; -1 if there is none. */
int32_t named(const struct cue *cues, int32_t count, const char *name, size_t length)
{
    for (int32_t i = 0; i < count; i++)
        if (cues[i].length == length && memcmp(cues[i].name, name, length) == 0)
            return i;
    return -1;
}

/* The order of two names, bytewise, a shorter one before those that it begins: below 0, 0 or above 0. */
int32_t order(const struct cue *a, const struct cue *b)
{
    int32_t differs;

    if (a->length <= b->length) {
        differs = memcmp(a->name, b->name, a->length);
        return differs != 0 ? differs : -(a->length < b->length);
    }
    return order(b, a) < 0 ? 1 : -1;
}

/* Whether names ascend strictly, as `order` has it. */
int32_t ascending(const struct cue *cues, int32_t count)
{
    for (int32_t i = 1; i < count; i++)
        if (order(&cues[i - 1], &cues[i]) >= 0)
            return 0;
    return 1;
}

/* A cue's colour as the screen wants it: 0xRRGGBB. */
uint32_t colour(const struct cue *cue)
{
    return (uint32_t)cue->colour[0] << 16 | (uint32_t)cue->colour[1] << 8 | cue->colour[2];
}
