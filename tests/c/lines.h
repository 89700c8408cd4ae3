/* Lines of a letter and decimal numbers from standard input, as document 01's last section has them. */
#ifndef LINES_H
#define LINES_H

#include <stddef.h>
#include <stdint.h>
#include <stdio.h>

/* The longest line, and so many numbers as one can have at most. */
enum { LONGEST = 40, MOST_IN_LINE = LONGEST / 2 };

/* What a line says: its letter, and its numbers. */
struct line {
    int letter;
    size_t count;
    uint32_t numbers[MOST_IN_LINE];
};

/* The next line's bytes. A line ends at byte 10, which isn't counted in it, or at the end of input; nothing after the last
   byte 10 is no line. Answers 0 where there is none; *length is then unset. Of a line longer than LONGEST the rest is dropped,
   and *length is LONGEST + 1. */
static int next_line(unsigned char *text, size_t *length)
{
    int c = getchar();
    size_t n = 0;
    if (c == EOF)
        return 0;
    for (; c != EOF && c != 10; c = getchar()) {
        if (n < LONGEST)
            text[n] = (unsigned char)c;
        if (n <= LONGEST)
            n++;
    }
    *length = n;
    return 1;
}

/* The number at a place: 1 to 10 digits that fit 32 bits. Answers the place after them, or 0 where none stands there. */
static size_t number_at(const unsigned char *text, size_t length, size_t at, uint32_t *number)
{
    uint64_t v = 0;
    size_t i = at;
    for (; i < length && text[i] >= '0' && text[i] <= '9'; i++) {
        if (i - at == 10)
            return 0;
        v = 10 * v + (text[i] - '0');
    }
    if (i == at || v > UINT32_MAX)
        return 0;
    *number = (uint32_t)v;
    return i;
}

/* Takes a line apart: a letter, and after each single space a number. Answers whether it is one. */
static int take_apart(const unsigned char *text, size_t length, struct line *l)
{
    size_t at = 1;
    if (length == 0 || length > LONGEST)
        return 0;
    l->letter = text[0];
    for (l->count = 0; at < length; l->count++) {
        if (text[at] != ' ')
            return 0;
        at = number_at(text, length, at + 1, &l->numbers[l->count]);
        if (at == 0)
            return 0;
    }
    return 1;
}

#endif
