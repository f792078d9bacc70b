/* A screen's state, and the commands that change it. */
#include <stdint.h>

enum { LINES = 2, WIDTH = 42, BRIGHTEST = 100 };

enum command { DARK, SHOW, STEP, FADE, NUMBER, TURN };

struct line {
    uint8_t used;
    char text[WIDTH];
};

struct screen {
    uint8_t dark;
    int16_t level;  /* 0 to BRIGHTEST */
    int8_t turn;    /* quarter turns, to the left below 0 */
    uint32_t cue;
    uint64_t shown; /* cues so far */
    struct line lines[LINES];
};

/* A number in decimal digits, without zeros in front; answers how many there are. */
uint32_t put_number(char *out, uint32_t number)
{
    char digits[10];
    uint32_t count = 0, i;

    do {
        digits[count++] = (char)('0' + number % 10);
        number /= 10;
    } while (number != 0);
    for (i = 0; i < count; i++)
        out[i] = digits[count - 1 - i];
    return count;
}

/* A line takes as much of the text as it has room for; answers 0, or 1 where something was left over. */
int32_t put_line(struct line *line, const char *text)
{
    uint8_t used = 0;

    while (used < WIDTH && text[used] != 0) {
        line->text[used] = text[used];
        used++;
    }
    line->used = used;
    return text[used] != 0;
}

/* The light of a pixel, 0 to 255, at the screen's level; squared, for that is how eyes see it. */
uint8_t light(const struct screen *screen, uint8_t pixel)
{
    int32_t level = screen->dark ? 0 : screen->level;

    return (uint8_t)(pixel * level * level / (BRIGHTEST * BRIGHTEST));
}

/* Carries out a command; answers 0, or 1 for a command or a value that a screen doesn't know. */
int32_t carry_out(struct screen *screen, enum command command, int32_t value)
{
    switch (command) {
    case DARK:
        screen->dark = value != 0;
        return 0;
    case SHOW:
        screen->cue = (uint32_t)value;
        screen->shown++;
        return 0;
    case STEP:
        return carry_out(screen, SHOW, (int32_t)(screen->cue + (uint32_t)value));
    case FADE:
        if (value < -screen->level || value > BRIGHTEST - screen->level)
            return 1;
        screen->level = (int16_t)(screen->level + value);
        return 0;
    case NUMBER:
        if (value < 0 || value >= LINES)
            return 1;
        screen->lines[value].used = (uint8_t)put_number(screen->lines[value].text, screen->cue);
        return 0;
    case TURN:
        screen->turn = (int8_t)((screen->turn + value % 4) % 4);
        return 0;
    }
    return 1;
}
