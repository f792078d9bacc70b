/* A cue timer: which cue comes next, and how long it is until then, as mm:ss.
   Times are milliseconds since the curtain rose, below 0 before that. */
#include <stdint.h>

enum { LONGEST = (99 * 60 + 59) * 1000 };

struct cue {
    uint8_t held; /* waits for the operator, whatever the time */
    int64_t at;
    uint32_t number;
};

/* The first cue after `now` that isn't held; -1 if there is none. The cues stand in the order of their times. */
int32_t next_cue(const struct cue *cues, int32_t count, int64_t now)
{
    for (int32_t i = 0; i < count; i++)
        if (!cues[i].held && cues[i].at > now)
            return i;
    return -1;
}

/* Milliseconds until that cue; -1 if there is none. */
int64_t remaining(const struct cue *cues, int32_t count, int64_t now)
{
    int32_t next = next_cue(cues, count, now);

    return next < 0 ? -1 : cues[next].at - now;
}

/* A number below 100, with a zero in front. */
void put_two(char *out, uint32_t number)
{
    out[0] = (char)('0' + number / 10);
    out[1] = (char)('0' + number % 10);
}

/* Five characters: mm:ss, rounded up to a second, or --:-- for what these can't say. */
void put_remaining(char *out, int64_t left)
{
    int64_t seconds;

    out[2] = ':';
    if (left < 0 || left > LONGEST) {
        out[0] = out[1] = out[3] = out[4] = '-';
        return;
    }
    seconds = (left + 999) / 1000;
    put_two(out, (uint32_t)(seconds / 60));
    put_two(out + 3, (uint32_t)(seconds % 60));
}
