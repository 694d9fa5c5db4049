/* What the files of the C host share. */
#ifndef HOST_H
#define HOST_H

#include <stddef.h>
#include <stdint.h>

#include "libc.h"
#include "mshelovat.h"

struct file {
    const uint8_t *bytes;
    size_t length;
};

/* A word's option, `NAME N`: its name, the most that N may be, whether a greater one is taken for that, what it is, and
 * whether it was said. A list of them ends with one that has no name. */
struct option {
    const char *name;
    uint64_t most;
    int capped;
    uint64_t value;
    int said;
};

/* file.c: maps a file by its name, to read it. Does not wait for a named pipe, which can't be mapped. 0 where that
 * fails. And memory, to write it: pages that nothing is written to take no room. 0 where there is none. */
int map(const char *name, struct file *f);
uint8_t *lend(size_t length);

/* progress.c: where `shown`, standard error shows how far long work is. The last figure is taken away at the end. */
extern int shown;
void show_at(const char *doing, size_t at, size_t length);
void show_checking(size_t length);
void show_end(size_t length);

/* mshelovat.c: prints a refusal. Returns the exit status. */
int refused(uint32_t number, uint64_t place);

/* asc.c: the work of two words, on one file each. Returns the exit status. */
int asc(const struct file *log);
int asc_read(const struct file *text);

/* ring.c: the work of a word, on two files, and how long a scratch it is to lend; without a word on that, long enough.
 */
extern struct option ring_options[];
int ring(const struct file *files);

/* tray.c: the work of a word, on three files, and what its messages have in common. */
extern struct option tray_options[];
int tray(const struct file *files);

#endif
