// Preloaded to `issuer`, it shifts the clock that the program sees, makes its syncs slow, and notes each folder that it syncs.
//
// OUTSIDE names a file of two signed numbers of 64 bits: by how many milliseconds the clock of the day is ahead, and how many a sync
// takes longer. Whoever writes the file changes both at once. The clock that only counts up isn't shifted.
// SYNCED names a file, to which each sync of a folder adds a byte.
#define _GNU_SOURCE
#include <fcntl.h>
#include <stdint.h>
#include <stdlib.h>
#include <sys/mman.h>
#include <sys/stat.h>
#include <sys/syscall.h>
#include <time.h>
#include <unistd.h>

enum { AHEAD, SLOW, NUMBERS };

// These are system calls of its own, since the program may define the functions of these names.
static int opened(const char *variable, int flags)
{
    const char *name = getenv(variable);
    return name == NULL ? -1 : syscall(SYS_openat, AT_FDCWD, name, flags | O_CLOEXEC);
}

static int64_t outside(int place)
{
    static const int64_t none[NUMBERS];
    static const volatile int64_t *numbers;
    if (numbers == NULL) {
        int file = opened("OUTSIDE", O_RDONLY);
        long memory = file < 0 ? -1 : syscall(SYS_mmap, NULL, sizeof none, PROT_READ, MAP_SHARED, file, 0);
        numbers = memory == -1 ? none : (const volatile int64_t *)memory;
        if (file >= 0)
            syscall(SYS_close, file);
    }
    return numbers[place];
}

int clock_gettime(clockid_t clock, struct timespec *time)
{
    if (syscall(SYS_clock_gettime, clock, time) != 0)
        return -1;
    if (clock == CLOCK_REALTIME || clock == CLOCK_REALTIME_COARSE) {
        int64_t ahead = outside(AHEAD), nanos = time->tv_nsec + ahead % 1000 * 1000000;
        time->tv_sec += ahead / 1000 + (nanos >= 1000000000) - (nanos < 0);
        time->tv_nsec = (nanos + 1000000000) % 1000000000;
    }
    return 0;
}

int fsync(int file)
{
    struct stat what;
    int64_t slow = outside(SLOW);
    struct timespec span = {.tv_sec = slow / 1000, .tv_nsec = slow % 1000 * 1000000};
    if (fstat(file, &what) == 0 && S_ISDIR(what.st_mode)) {
        int notes = opened("SYNCED", O_WRONLY | O_APPEND);
        syscall(SYS_write, notes, "f", 1);
        syscall(SYS_close, notes);
    }
    syscall(SYS_nanosleep, &span, NULL);
    return syscall(SYS_fsync, file);
}
