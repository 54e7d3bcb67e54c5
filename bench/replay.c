// Makes the calls of a replay and nothing else: for each record that stands on DEVICE a write of its bytes behind the gate of COPY, a
// sync, a write of the gate and a sync, and then a write of the next line of TEXTS to standard output.
#include <fcntl.h>
#include <stdio.h>
#include <stdlib.h>
#include <string.h>
#include <sys/stat.h>
#include <unistd.h>

static void fail(const char *what)
{
    perror(what);
    exit(1);
}

// All bytes of a file, and how many there are.
static unsigned char *bytes_of(const char *name, size_t *size)
{
    struct stat about;
    int file = open(name, O_RDONLY);
    if (file < 0 || fstat(file, &about) != 0)
        fail(name);
    *size = about.st_size;
    unsigned char *bytes = malloc(*size + 1);
    if (bytes == NULL || read(file, bytes, *size) != (ssize_t)*size)
        fail(name);
    close(file);
    return bytes;
}

// Writes there, and makes it last.
static void put(int file, const unsigned char *bytes, size_t count, size_t at)
{
    if (pwrite(file, bytes, count, at) != (ssize_t)count || fsync(file) != 0)
        fail("put");
}

int main(int count, char **words)
{
    size_t size, length;
    if (count != 4)
        return 2;
    unsigned char *device = bytes_of(words[1], &size);
    unsigned char *texts = bytes_of(words[3], &length);
    unsigned char *end = texts + length;
    int copy = open(words[2], O_RDWR);
    if (copy < 0)
        fail(words[2]);
    // The first half of a device in halves begins at place 17, with the length of an image of no bytes.
    size_t gate = 21;
    while (gate + 5 < size && device[gate] == 1) {
        unsigned char *at = device + gate + 1;
        size_t body = ((size_t)at[0] << 24) + (at[1] << 16) + (at[2] << 8) + at[3];
        unsigned char closed = at[4 + body];
        at[4 + body] = 0;
        put(copy, at, 5 + body, gate + 1);
        at[4 + body] = closed;
        put(copy, device + gate, 1, gate);
        unsigned char *next = memchr(texts, '\n', end - texts);
        if (next == NULL || write(1, texts, next + 1 - texts) != next + 1 - texts)
            fail("text");
        texts = next + 1;
        gate += 5 + body;
    }
    return texts == end ? 0 : 1;
}
