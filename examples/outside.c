/* What a book can't hold, beside what it can: two of these functions are left out, each with its reason. */
#include <stdint.h>

int puts(const char *);

/* The mean speed in characters a second. Floats are outside. */
float mean_speed(const uint32_t *characters, const float *seconds, uint32_t count)
{
    float sum = 0;

    for (uint32_t i = 0; i < count; i++)
        sum += (float)characters[i] / seconds[i];
    return count == 0 ? 0 : sum / (float)count;
}

/* Calls a function that is defined nowhere here: outside. */
int32_t announce(const char *text)
{
    return puts(text) < 0;
}

/* Calls one that is left out. It is translated all the same: whoever loads its lines has `announce` from elsewhere. */
int32_t announce_both(const char *first, const char *second)
{
    return announce(first) | announce(second);
}

/* How long a text should stand, in milliseconds: one and a half seconds, and one for each 15 characters. */
uint32_t reading_time(uint32_t characters)
{
    return 1500 + characters * 1000 / 15;
}

/* The same for several texts one after the other. */
uint64_t reading_times(const uint32_t *characters, uint32_t count)
{
    uint64_t sum = 0;

    for (uint32_t i = 0; i < count; i++)
        sum += reading_time(characters[i]);
    return sum;
}
