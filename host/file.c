/* Files, mapped to be read, and memory to be written. */
#include "host.h"

/* What has no byte stands here, as numbers do. */
static _Alignas(8) uint8_t nothing[1];

/* Maps an open file to read it. An empty one, which no map takes, stands on a byte of our own; a length of 0 is
 * believed where a read ends at once, since a folder may have it too. 0 where that fails. */
static int map_open(int fd, struct file *f)
{
    long length = lseek(fd, 0, SEEK_END);
    if (length < 0)
        return 0;
    f->bytes = nothing;
    f->length = (size_t)length;
    if (length == 0)
        return read(fd, nothing, 1) == 0;
    f->bytes = mmap(0, f->length, PROT_READ, MAP_PRIVATE, fd, 0);
    return f->bytes != MAP_FAILED;
}

int map(const char *name, struct file *f)
{
    int fd = open(name, O_RDONLY | O_NONBLOCK);
    int ok = fd >= 0 && map_open(fd, f);
    if (fd >= 0)
        close(fd);
    return ok;
}

uint8_t *lend(size_t length)
{
    void *bytes = nothing;
    if (length > 0)
        bytes = mmap(0, length, PROT_READ | PROT_WRITE, MAP_PRIVATE | MAP_ANONYMOUS | MAP_NORESERVE, -1, 0);
    return bytes == MAP_FAILED ? 0 : bytes;
}
