/* Mshelovat on files of any size, over the proved calls.
 *
 *   mshelovat list LOG, mshelovat check LOG BUNDLE: what the lister and the desk program print.
 *   mshelovat asc LOG: the lines of the log's CAN objects; a refusal goes to standard error.
 *   mshelovat asc-read FILE: what each line of a file tells, or that it is refused.
 *   mshelovat ring FIRST SECOND [--scratch N]: what `list` prints of the two files joined, with where each object lies;
 *     one that lies in both is copied to a scratch of N bytes.
 *   mshelovat tray IDS STAMPS DATA [OPTION N ..]: a CAN message for each id, as a log; a refusal goes to standard
 *     error.
 *
 * Exit status: 0 accepted, 1 refused, 2 where the usage is wrong, a file can't be read or the output can't be written.
 * No file may be cut while it is read. */
#include "host.h"

int refused(uint32_t number, uint64_t place)
{
    printf("refused %u at %lu\n", number, place);
    return 1;
}

static int list(const struct file *log)
{
    uint64_t o[MSHELOVAT_STEP];
    uint64_t count = 0;
    size_t at = 0;
    uint32_t number;
    while ((number = mshelovat_step(log->bytes, log->length, at, o, MSHELOVAT_STEP)) == 0) {
        printf("%lu %lu %lu\n", o[MSHELOVAT_START], o[MSHELOVAT_SIZE], o[MSHELOVAT_KIND]);
        count += 1;
        at = (size_t)o[MSHELOVAT_NEXT];
        show_at("listing", at, log->length);
    }
    show_end(log->length);
    if (number != MSHELOVAT_DONE)
        return refused(number, o[MSHELOVAT_START]);
    printf("end %zu objects %lu\n", log->length, count);
    return 0;
}

static int check(const struct file *files)
{
    struct file log = files[0], bundle = files[1];
    uint64_t value;
    uint32_t number;
    show_checking(log.length);
    number = mshelovat_check(log.bytes, log.length, bundle.bytes, bundle.length, &value, 1);
    show_end(log.length);
    if (number != 0)
        return refused(number, value);
    printf("accepted %lu\n", value);
    return 0;
}

/* A word: how many files it takes, what it does with them, and its options. Where its output is the lines of a text or
 * a log and nothing else, `no file` goes to standard error. */
struct word {
    const char *name;
    int files;
    int (*work)(const struct file *files);
    int text;
    struct option *options;
};

static struct option none[] = {{0, 0, 0, 0, 0}};

static const struct word words[] = {
    {"list", 1, list, 0, none},
    {"check", 2, check, 0, none},
    {"asc", 1, asc, 1, none},
    {"asc-read", 1, asc_read, 1, none},
    {"ring", 2, ring, 0, ring_options},
    {"tray", 3, tray, 1, tray_options},
};

/* A number in decimal digits, into `value` where it is at most `most`, else `most`. 0 where it is none, 2 where it is
 * greater. */
static int number_of(const char *text, uint64_t most, uint64_t *value)
{
    int greater = 0;
    *value = 0;
    for (const char *p = text; *p; p++) {
        uint64_t digit = (uint64_t)*p - '0';
        if (digit > 9)
            return 0;
        greater |= digit > most || *value > (most - digit) / 10;
        *value = greater ? most : 10 * *value + digit;
    }
    return *text == 0 ? 0 : 1 + greater;
}

/* Takes options off the end, each with its number: 0 where one is none of the word's, was said before, or its number is
 * none or too great. */
static int take_options(struct option *options, int count, char **argv)
{
    for (int i = 0; i < count; i += 2) {
        struct option *o = options;
        int got;
        while (o->name && strcmp(o->name, argv[i]) != 0)
            o++;
        if (!o->name || o->said || i + 1 == count)
            return 0;
        got = number_of(argv[i + 1], o->most, &o->value);
        if (got == 0 || (got == 2 && !o->capped))
            return 0;
        o->said = 1;
    }
    return 1;
}

/* The word with as many files as it takes; 0 where the usage is wrong. */
static const struct word *asked(int argc, char **argv)
{
    for (size_t i = 0; i < sizeof words / sizeof *words; i++) {
        const struct word *w = &words[i];
        int more = argc - 2 - w->files;
        if (more >= 0 && strcmp(argv[1], w->name) == 0)
            return take_options(w->options, more, argv + argc - more) ? w : 0;
    }
    return 0;
}

/* Maps the files that a word takes. */
static int map_all(int count, char **names, struct file *files)
{
    for (int i = 0; i < count; i++)
        if (!map(names[i], &files[i]))
            return 0;
    return 1;
}

int main(int argc, char **argv)
{
    struct file files[3];
    const struct word *word = asked(argc, argv);
    int status = 2;
    if (!word) {
        fprintf(stderr, "usage: mshelovat list LOG | mshelovat check LOG BUNDLE | "
                        "mshelovat asc LOG | mshelovat asc-read FILE | mshelovat ring FIRST SECOND [--scratch N] | "
                        "mshelovat tray IDS STAMPS DATA [--unit N] [--channel N] [--flags N] [--dlc N] [--version N] "
                        "[--client N | --status N --original N] [--room N]\n");
        return 2;
    }
    shown = isatty(2) && (word->work == check || !isatty(1)); /* lines at a terminal show it themselves */
    if (!map_all(word->files, argv + 2, files))
        fprintf(word->text ? stderr : stdout, "no file\n");
    else
        status = word->work(files);
    return fflush(stdout) == 0 && !ferror(stdout) ? status : 2;
}
