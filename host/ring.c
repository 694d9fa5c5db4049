/* The objects of a ring: a log in two files, the older part first. */
#include "host.h"

struct option ring_options[] = {
    {"--scratch", SIZE_MAX, 1, SIZE_MAX, 0},
    {0, 0, 0, 0, 0},
};

static size_t least(size_t a, size_t b)
{
    return a < b ? a : b;
}

/* A step over the two files. */
static uint32_t step(const struct file *files, size_t at, uint8_t *scratch, size_t room, uint64_t *o)
{
    return mshelovat_ring_step(files[0].bytes, files[0].length, files[1].bytes, files[1].length, at, scratch, room, o,
                               MSHELOVAT_RING_STEP);
}

/* No scratch need be longer than the joined log, which is refused where its length has more than 32 bits. */
int ring(const struct file *files)
{
    static const char *const lies[] = {"", "first", "second", "crossing"};
    size_t length = files[0].length + files[1].length, at = 0;
    size_t room = least((size_t)ring_options[0].value, least(length, UINT32_MAX));
    uint8_t *scratch = lend(room);
    uint64_t o[MSHELOVAT_RING_STEP], count = 0;
    uint32_t number;
    if (!scratch) {
        fprintf(stderr, "no memory for a scratch of %zu bytes\n", room);
        return 2;
    }
    while ((number = step(files, at, scratch, room, o)) == 0) {
        printf("%lu %lu %lu %s\n", o[MSHELOVAT_START], o[MSHELOVAT_SIZE], o[MSHELOVAT_KIND], lies[o[MSHELOVAT_LIES]]);
        count += 1;
        at = (size_t)o[MSHELOVAT_NEXT];
        show_at("listing", at, length);
    }
    show_end(length);
    if (number != MSHELOVAT_DONE)
        return refused(number, o[MSHELOVAT_START]);
    printf("end %zu objects %lu\n", length, count);
    return 0;
}
