/* How far long work is. Every so many bytes there is a new figure; work on fewer bytes has none. */
#include "host.h"

enum { SPAN = 1 << 20 };

int shown;

void show_at(const char *doing, size_t at, size_t length)
{
    static size_t next_shown = SPAN;
    if (at < next_shown)
        return;
    next_shown = at + SPAN;
    if (shown)
        fprintf(stderr, "\r%s: %zu of %zu bytes, %zu %%", doing, at, length, 100 * at / length);
}

void show_checking(size_t length)
{
    if (shown && length >= SPAN)
        fprintf(stderr, "\rchecking %zu bytes", length);
}

void show_end(size_t length)
{
    if (shown && length >= SPAN)
        fprintf(stderr, "\r\033[K");
}
