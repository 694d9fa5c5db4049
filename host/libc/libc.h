/* The calls of x86-64 Linux's C library that the host makes. The kit has no C headers, and those of an Arm machine are
 * Arm's: so the calls are declared here, with x86-64's values. */
#ifndef HOST_LIBC_H
#define HOST_LIBC_H

#include <stddef.h>

#define O_RDONLY 0
#define O_NONBLOCK 04000
#define SEEK_END 2
#define PROT_READ 1
#define PROT_WRITE 2
#define MAP_PRIVATE 2
#define MAP_ANONYMOUS 0x20
#define MAP_NORESERVE 0x4000
#define MAP_FAILED ((void *)-1)

int open(const char *name, int flags, ...);
int close(int fd);
int isatty(int fd);
long lseek(int fd, long offset, int whence);
long read(int fd, void *bytes, size_t count);
void *mmap(void *at, size_t length, int protection, int flags, int fd, long offset);

typedef struct _IO_FILE FILE;
extern FILE *stdout, *stderr;

int printf(const char *format, ...);
int fprintf(FILE *to, const char *format, ...);
size_t fwrite(const void *bytes, size_t size, size_t count, FILE *to);
int fflush(FILE *of);
int ferror(FILE *of);

int strcmp(const char *a, const char *b);
void *memchr(const void *bytes, int byte, size_t count);

#endif
