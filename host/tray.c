/* A tray of CAN messages: ids, time stamps and data in three files, as the call takes them, and what is common to all
 * as options. The messages are a log, and go to standard output. */
#include "host.h"

enum { UNIT, CHANNEL, FLAGS, DLC, VERSION, CLIENT, STATUS, ORIGINAL, ROOM };

struct option tray_options[] = {
    {"--unit", UINT32_MAX, 0, 2, 0},
    {"--channel", UINT16_MAX, 0, 1, 0},
    {"--flags", UINT8_MAX, 0, 0, 0},
    {"--dlc", UINT8_MAX, 0, 8, 0},
    {"--version", UINT16_MAX, 0, 0, 0},
    {"--client", UINT16_MAX, 0, 0, 0},
    {"--status", UINT8_MAX, 0, 0, 0},
    {"--original", UINT64_MAX, 0, 0, 0},
    {"--room", SIZE_MAX, 1, SIZE_MAX, 0},
    {0, 0, 0, 0, 0},
};

static uint64_t said(int option)
{
    return tray_options[option].value;
}

/* Whether the messages are to have the second header. */
static int second(void)
{
    return tray_options[STATUS].said || tray_options[ORIGINAL].said;
}

/* Writes the tray to `room` bytes, and how many messages that are. */
static uint32_t write_tray(const struct file *files, uint8_t *bytes, size_t room, uint64_t *written)
{
    const uint32_t *ids = (const uint32_t *)files[0].bytes;
    const uint64_t *stamps = (const uint64_t *)files[1].bytes;
    size_t n = files[0].length / sizeof *ids, s = files[1].length / sizeof *stamps;
    uint32_t unit = (uint32_t)said(UNIT);
    uint16_t version = (uint16_t)said(VERSION), channel = (uint16_t)said(CHANNEL);
    uint8_t flags = (uint8_t)said(FLAGS), dlc = (uint8_t)said(DLC);
    if (second())
        return mshelovat_tray_second(unit, (uint8_t)said(STATUS), version, said(ORIGINAL), channel, flags, dlc, ids, n,
                                     stamps, s, files[2].bytes, files[2].length, bytes, room, written, 1);
    return mshelovat_tray_first(unit, (uint16_t)said(CLIENT), version, channel, flags, dlc, ids, n, stamps, s,
                                files[2].bytes, files[2].length, bytes, room, written, 1);
}

/* What is asked for can't be: says why. Returns the exit status. */
static int trouble(const char *why)
{
    fprintf(stderr, "%s\n", why);
    return 2;
}

/* There is room for all messages, but where `--room` says less. */
int tray(const struct file *files)
{
    size_t each = second() ? MSHELOVAT_MESSAGE_SECOND : MSHELOVAT_MESSAGE_FIRST;
    size_t all = files[0].length / sizeof(uint32_t) * each;
    size_t room = said(ROOM) < all ? (size_t)said(ROOM) : all;
    uint8_t *bytes;
    uint64_t written;
    uint32_t number;
    if (files[0].length % sizeof(uint32_t) != 0 || files[1].length % sizeof(uint64_t) != 0)
        return trouble("an id has four bytes and a time stamp eight: a file ends within one");
    if (second() && tray_options[CLIENT].said)
        return trouble("the first header alone has a client, and the second alone a status and an original time stamp");
    if (!(bytes = lend(room)))
        return trouble("no memory for the messages");
    number = write_tray(files, bytes, room, &written);
    if (fwrite(bytes, each, (size_t)written, stdout) != written || fflush(stdout) != 0)
        return 2;
    if (number == 0)
        return 0;
    fprintf(stderr, "written %lu\nrefused %u at 0\n", written, number);
    return 1;
}
