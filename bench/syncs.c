/* Loaded before the C library's own, it makes each fdatasync and each fsync take as many microseconds longer as SYNC_SLEEPS says, as on a slow
   disk, and writes a byte to the file that SYNCS names, if it names one. */
#define _GNU_SOURCE
#include <fcntl.h>
#include <stdlib.h>
#include <sys/syscall.h>
#include <unistd.h>

static int counts = -1;
static useconds_t sleeps;

__attribute__((constructor)) static void begin(void) {
    const char *name = getenv("SYNCS"), *more = getenv("SYNC_SLEEPS");
    if (name)
        counts = open(name, O_WRONLY | O_APPEND | O_CREAT | O_CLOEXEC, 0600);
    if (more)
        sleeps = (useconds_t)atol(more);
}

static long slow(long call, int file) {
    if (counts >= 0 && write(counts, "s", 1) != 1)
        abort();
    if (sleeps)
        usleep(sleeps);
    return syscall(call, file);
}

int fdatasync(int file) { return (int)slow(SYS_fdatasync, file); }
int fsync(int file) { return (int)slow(SYS_fsync, file); }
