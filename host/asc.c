/* The lines of a log's CAN objects, and what such lines tell. */
#include "host.h"

static int put(const uint8_t *lines, size_t length)
{
    return fwrite(lines, 1, length, stdout) == length;
}

/* Lines wait on a page, which is put out where the longest line would have no room. */
int asc(const struct file *log)
{
    enum { PAGE = 1 << 16, FULL = PAGE - MSHELOVAT_LONGEST_LINE };
    static uint8_t page[PAGE];
    uint64_t o[2];
    size_t at = 0, used = 0;
    uint32_t number;
    int ok = 1;
    while (ok && (number = mshelovat_line_at(log->bytes, log->length, at, page + used, PAGE - used, o, 2)) == 0) {
        used += (size_t)o[0];
        at = (size_t)o[1];
        if (used > FULL) {
            ok = put(page, used);
            used = 0;
        }
        show_at("writing", at, log->length);
    }
    show_end(log->length);
    if (!ok || !put(page, used) || fflush(stdout) != 0)
        return 2;
    if (number == MSHELOVAT_DONE)
        return 0;
    fprintf(stderr, "refused %u at %lu\n", number, o[0]);
    return 1;
}

static void print_message(const uint64_t *told)
{
    uint64_t dlc = told[MSHELOVAT_TOLD_DLC];
    uint64_t count = told[MSHELOVAT_TOLD_REMOTE] ? 0 : dlc < 8 ? dlc : 8;
    printf(", id 0x%lX%s", told[MSHELOVAT_TOLD_ID], told[MSHELOVAT_TOLD_EXTENDED] ? " extended" : "");
    printf(", %s", told[MSHELOVAT_TOLD_SENT] ? "Tx" : "Rx");
    printf(", %s, DLC %lu", told[MSHELOVAT_TOLD_REMOTE] ? "remote" : "data", dlc);
    for (uint64_t i = 0; i < count; i++)
        printf(i == 0 ? ", bytes %02lX" : " %02lX", told[MSHELOVAT_TOLD_BYTE_0 + i]);
}

static void print_statistic(const uint64_t *told)
{
    static const char *const names[] = {"D", "XD", "R", "XR", "E", "O"};
    uint64_t load = told[MSHELOVAT_TOLD_LOAD];
    printf(", load %lu.%02lu %%", load / 100, load % 100);
    for (size_t i = 0; i < 6; i++)
        printf(", %s %lu", names[i], told[MSHELOVAT_TOLD_STANDARD_DATA + i]);
}

static void print_told(const uint64_t *told)
{
    uint64_t kind = told[MSHELOVAT_TOLD_KIND];
    printf(kind == 1 ? "message" : kind == 3 ? "overload" : "statistic");
    printf(" at %lu s %lu ns", told[MSHELOVAT_TOLD_SECONDS], told[MSHELOVAT_TOLD_NANOSECONDS]);
    printf(", channel %lu", told[MSHELOVAT_TOLD_CHANNEL]);
    if (kind == 1)
        print_message(told);
    else if (kind == 4)
        print_statistic(told);
    printf("\n");
}

/* The bytes up to the first LF, that included; all of them where there is none. */
static size_t line_length(const uint8_t *text, size_t length)
{
    const uint8_t *end = memchr(text, '\n', length);
    return end ? (size_t)(end - text) + 1 : length;
}

int asc_read(const struct file *text)
{
    uint64_t told[MSHELOVAT_TOLD];
    uint64_t line = 0;
    size_t at = 0;
    int status = 0;
    while (at < text->length && !ferror(stdout)) {
        size_t length = line_length(text->bytes + at, text->length - at);
        uint32_t number = mshelovat_read_line(text->bytes + at, length, told, MSHELOVAT_TOLD);
        line += 1;
        printf("line %lu: ", line);
        if (number == 0) {
            print_told(told);
        } else {
            printf("refused %u\n", number);
            status = 1;
        }
        at += length;
        show_at("reading", at, text->length);
    }
    show_end(text->length);
    return status;
}
