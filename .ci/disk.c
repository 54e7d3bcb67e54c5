// A disk that forgets, for a program that is to keep what it synced: a library that stands before the C library's writes and syncs when
// it is preloaded (LD_PRELOAD). It notes what the program does, from which what the disk kept is made anew (disk.py), and kills it.
//
//     DISK        the file that is the device
//     DISK_LOG    the log, which gets a line at its end for each action before the next one, so that it outlives the program
//     DISK_SYNCS  which syncs count: `all`, `none`, those after a `gate` (a write of one byte), those after a `body` (any other write), or
//                 `appends`: all but the two of a turn, after a write at a half's start and after one of the selector
//     DISK_STOP   the number of the action at which the program is killed, from 1; none if it isn't said
//
// The actions are writes and syncs of the device, and texts: what goes to standard output or to a socket. The log's lines are
//
//     write PLACE BYTES    before a write of the device
//     sync                 after a sync that counts; any other one does nothing, and is not noted
//     text STREAM BYTES    before the bytes are given to a stream, which goes by a number of its own
//     took COUNT           after that: how many of them were taken, -1 for none
//
// with bytes in hexadecimal. The last action is a write that is made, a sync that isn't, or a text of which one byte goes out. No sync goes
// on to the real disk: only the program is killed, and the system keeps what it wrote.
#define _GNU_SOURCE
#include <errno.h>
#include <fcntl.h>
#include <signal.h>
#include <stdarg.h>
#include <stdio.h>
#include <stdlib.h>
#include <string.h>
#include <sys/socket.h>
#include <sys/stat.h>
#include <sys/syscall.h>
#include <sys/uio.h>
#include <unistd.h>

enum { BYTES = 1 << 17, HEAD = 64, FIRST_FILE = 100, SELECTOR = 16, HALVES_START = 17 };
enum role { OTHER, DEVICE, STREAM };

static struct stat device;
static int log_file = -1;
static long actions, stop;
static const char *syncs;
static size_t last_write;
static off_t last_place;

static void fail(const char *what)
{
    perror(what);
    abort();
}

__attribute__((constructor)) static void begin(void)
{
    const char *name = getenv("DISK"), *log_name = getenv("DISK_LOG"), *number = getenv("DISK_STOP");
    syncs = getenv("DISK_SYNCS");
    if (name == NULL || log_name == NULL || syncs == NULL)
        return;
    if (stat(name, &device) != 0)
        fail(name);
    int file = open(log_name, O_WRONLY | O_CREAT | O_APPEND | O_CLOEXEC, 0600);
    log_file = fcntl(file, F_DUPFD_CLOEXEC, FIRST_FILE);
    if (file < 0 || log_file < 0)
        fail(log_name);
    close(file);
    stop = number == NULL ? 0 : atol(number);
}

static void note(const char *form, ...)
{
    char line[HEAD];
    va_list values;
    va_start(values, form);
    int length = vsnprintf(line, sizeof line, form, values);
    va_end(values);
    if (syscall(SYS_write, log_file, line, length) != length)
        fail("the log");
}

// A line that ends with so many bytes, by one write.
static void note_bytes(const char *word, unsigned long number, const unsigned char *bytes, size_t count)
{
    static char line[HEAD + 2 * BYTES];
    if (count > BYTES)
        fail("more bytes than a line takes");
    size_t length = snprintf(line, HEAD, "%s %lu ", word, number);
    for (size_t i = 0; i < count; i++) {
        line[length++] = "0123456789abcdef"[bytes[i] >> 4];
        line[length++] = "0123456789abcdef"[bytes[i] & 15];
    }
    line[length++] = '\n';
    if (syscall(SYS_write, log_file, line, length) != (long)length)
        fail("the log");
}

static void end(void)
{
    for (;;)
        syscall(SYS_kill, getpid(), SIGKILL);
}

// What a file is to the log. A stream's number is its inode, since that of a file handle comes again.
static enum role role_of(int file, unsigned long *stream)
{
    struct stat found;
    if (log_file < 0 || file == STDERR_FILENO || fstat(file, &found) != 0)
        return OTHER;
    if (found.st_dev == device.st_dev && found.st_ino == device.st_ino)
        return DEVICE;
    *stream = found.st_ino;
    return file == STDOUT_FILENO || S_ISSOCK(found.st_mode) ? STREAM : OTHER;
}

static ssize_t give(int file, const struct iovec *parts, int count, int flags)
{
    struct msghdr message = {.msg_iov = (struct iovec *)parts, .msg_iovlen = count};
    return flags == 0 ? syscall(SYS_writev, file, parts, count) : syscall(SYS_sendmsg, file, &message, flags);
}

// The parts as one, in memory that the next call uses again.
static struct iovec joined(const struct iovec *parts, int count)
{
    static unsigned char bytes[BYTES];
    struct iovec whole = {.iov_base = bytes};
    for (int i = 0; i < count; i++) {
        if (parts[i].iov_len > BYTES - whole.iov_len)
            fail("more bytes than a text has");
        memcpy(bytes + whole.iov_len, parts[i].iov_base, parts[i].iov_len);
        whole.iov_len += parts[i].iov_len;
    }
    return whole;
}

static ssize_t put(int file, const void *bytes, size_t count, off_t place)
{
    last_write = count;
    last_place = place;
    note_bytes("write", place, bytes, count);
    ssize_t done = syscall(SYS_pwrite64, file, bytes, count, place);
    if (++actions == stop)
        end();
    return done;
}

static ssize_t say(int file, unsigned long stream, struct iovec text, int flags)
{
    int is_last = ++actions == stop;
    note_bytes("text", stream, text.iov_base, text.iov_len);
    if (is_last)
        text.iov_len = 1;
    ssize_t taken = give(file, &text, 1, flags);
    int fault = errno;
    note("took %ld\n", (long)taken);
    if (is_last)
        end();
    errno = fault;
    return taken;
}

static ssize_t go_out(int file, const struct iovec *parts, int count, int flags)
{
    unsigned long stream;
    enum role role = role_of(file, &stream);
    struct iovec whole = {0};
    if (role != OTHER)
        whole = joined(parts, count);
    if (whole.iov_len == 0)
        return give(file, parts, count, flags);
    if (role == STREAM)
        return say(file, stream, whole, flags);
    ssize_t done = put(file, whole.iov_base, whole.iov_len, lseek(file, 0, SEEK_CUR));
    if (done > 0)
        lseek(file, done, SEEK_CUR);
    return done;
}

// Whether the last write was one of a turn.
static int is_of_turn(void)
{
    off_t second = HALVES_START + (device.st_size - HALVES_START) / 2;
    return last_place == SELECTOR || last_place == HALVES_START || last_place == second;
}

static int counts(void)
{
    if (strcmp(syncs, "appends") == 0)
        return !is_of_turn();
    return strcmp(syncs, "all") == 0 || strcmp(syncs, last_write == 1 ? "gate" : "body") == 0;
}

static int settle(long call, int file)
{
    unsigned long stream;
    if (role_of(file, &stream) != DEVICE)
        return syscall(call, file);
    if (++actions == stop)
        end();
    if (counts())
        note("sync\n");
    return 0;
}

ssize_t write(int file, const void *bytes, size_t count)
{
    return go_out(file, &(struct iovec){(void *)bytes, count}, 1, 0);
}

ssize_t writev(int file, const struct iovec *parts, int count)
{
    return go_out(file, parts, count, 0);
}

ssize_t send(int file, const void *bytes, size_t count, int flags)
{
    return go_out(file, &(struct iovec){(void *)bytes, count}, 1, flags);
}

ssize_t sendto(int file, const void *bytes, size_t count, int flags, const struct sockaddr *to, socklen_t length)
{
    if (to != NULL)
        return syscall(SYS_sendto, file, bytes, count, flags, to, length);
    return send(file, bytes, count, flags);
}

ssize_t sendmsg(int file, const struct msghdr *message, int flags)
{
    return go_out(file, message->msg_iov, message->msg_iovlen, flags);
}

ssize_t pwrite(int file, const void *bytes, size_t count, off_t place)
{
    unsigned long stream;
    if (role_of(file, &stream) != DEVICE)
        return syscall(SYS_pwrite64, file, bytes, count, place);
    return put(file, bytes, count, place);
}

ssize_t pwrite64(int file, const void *bytes, size_t count, off_t place)
{
    return pwrite(file, bytes, count, place);
}

int fsync(int file)
{
    return settle(SYS_fsync, file);
}

int fdatasync(int file)
{
    return settle(SYS_fdatasync, file);
}
