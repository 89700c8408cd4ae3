/* The memset and the memcpy that both machines are linked with. The C library chooses its own by the processor, and counts would
   differ from one machine to the next; these are the same everywhere: sixteen bytes a step, the rest one by one. */
#include <emmintrin.h>
#include <stddef.h>

void *memset(void *to, int byte, size_t n)
{
    unsigned char *at = to, *end = at + n;
    for (; end - at >= 16; at += 16)
        _mm_storeu_si128((__m128i *)at, _mm_set1_epi8((char)byte));
    for (; at < end; at++)
        *(volatile unsigned char *)at = (unsigned char)byte;
    return to;
}

void *memcpy(void *restrict to, const void *restrict from, size_t n)
{
    unsigned char *at = to, *end = at + n;
    const unsigned char *next = from;
    for (; end - at >= 16; at += 16, next += 16)
        _mm_storeu_si128((__m128i *)at, _mm_loadu_si128((const __m128i *)next));
    for (; at < end; at++, next++)
        *(volatile unsigned char *)at = *next;
    return to;
}
