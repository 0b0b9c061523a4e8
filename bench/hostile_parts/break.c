/* Loaded before the C library's own, it breaks one call on the file of a disk: the one whose number BREAK_AT names, from 1 on, of those that
   BREAK is about.

   write     a pwrite fails and writes nothing
   half      a pwrite writes half of its bytes, and the next one fails
   none      a pwrite writes nothing, and says so
   full      a pwrite fails since the disk is full, and so does each behind it
   sync      an fdatasync fails
   lost      an fdatasync fails, and what was written since the one before it is lost
   read      a pread fails
   short     a pwrite writes half of its bytes, and says so: no fault
   signal    a pwrite is interrupted and writes nothing: no fault
   few       a pread reads half of its bytes, and says so: no fault
   die       the process is killed before a pwrite
   cut       the process is killed within a pwrite, when half of its bytes are written
   drop      the process is killed in an fdatasync, and what was written since the one before it is lost
   tear      so it is, and of each of these writes the first half is lost

   Standard error is told `broken` where it came to that, and `touched` for each call behind one that failed. */
#define _GNU_SOURCE
#include <errno.h>
#include <signal.h>
#include <stdlib.h>
#include <string.h>
#include <sys/syscall.h>
#include <sys/types.h>
#include <unistd.h>

#define MOST_UNSYNCED 64

static const char *kind;
static long at, seen;
static int has_failed, fails_next;
static struct {
    off_t place;
    size_t size;
    char *bytes;
} unsynced[MOST_UNSYNCED];
static int unsynced_count;

static void say(const char *word) {
    if (syscall(SYS_write, 2, word, strlen(word)) < 0)
        abort();
}

static int is(const char *name) { return kind && strcmp(kind, name) == 0; }

static void begin(void) {
    if (at)
        return;
    const char *number = getenv("BREAK_AT");
    kind = getenv("BREAK");
    at = number ? atol(number) : -1;
}

/* Whether this call, of those that are counted, is the one that breaks. */
static int breaks(void) {
    if (++seen != at)
        return 0;
    say("broken\n");
    return 1;
}

static int failed(int error) {
    has_failed = 1;
    errno = error;
    return -1;
}

static void note_touch(void) {
    if (has_failed)
        say("touched\n");
}

static void keep_old(int file, size_t size, off_t place) {
    if (!(is("lost") || is("drop") || is("tear")) || unsynced_count == MOST_UNSYNCED)
        return;
    char *bytes = malloc(size);
    if (!bytes || syscall(SYS_pread64, file, bytes, size, place) != (long)size)
        abort();
    unsynced[unsynced_count].place = place;
    unsynced[unsynced_count].size = size;
    unsynced[unsynced_count++].bytes = bytes;
}

/* What was written since the last fdatasync is forgotten: it is lost, or half of it, or stays. */
static void forget(int file, int is_lost) {
    while (unsynced_count > 0) {
        unsynced_count--;
        size_t size = unsynced[unsynced_count].size;
        if (is("tear") && size > 1)
            size /= 2;
        if (is_lost && syscall(SYS_pwrite64, file, unsynced[unsynced_count].bytes, size, unsynced[unsynced_count].place) < 0)
            abort();
        free(unsynced[unsynced_count].bytes);
    }
}

static void die(void) {
    kill(getpid(), SIGKILL);
    for (;;)
        pause();
}

static int is_about_writes(void) {
    static const char *kinds[] = {"write", "half", "none", "full", "short", "signal", "die", "cut"};
    for (size_t place = 0; place < sizeof kinds / sizeof *kinds; place++)
        if (is(kinds[place]))
            return 1;
    return 0;
}

ssize_t pwrite64(int file, const void *bytes, size_t size, off_t place) {
    begin();
    note_touch();
    if (fails_next)
        return failed(EIO);
    keep_old(file, size, place);
    int is_one = is_about_writes() && breaks();
    if (is_one && is("die"))
        die();
    if (is_one && is("cut")) {
        syscall(SYS_pwrite64, file, bytes, size / 2, place);
        die();
    }
    if (is_one && is("write"))
        return failed(EIO);
    if (is_one && is("full"))
        return failed(ENOSPC);
    if (is_one && is("none")) {
        has_failed = 1;
        return 0;
    }
    if (is_one && is("signal")) {
        errno = EINTR;
        return -1;
    }
    if (is_one && size > 1 && (is("half") || is("short")))
        size /= 2;
    else if (is_one && is("half"))
        return failed(EIO);
    fails_next = is_one && is("half");
    return syscall(SYS_pwrite64, file, bytes, size, place);
}

ssize_t pread64(int file, void *bytes, size_t size, off_t place) {
    begin();
    note_touch();
    int is_one = (is("read") || is("few")) && breaks();
    if (is_one && is("read"))
        return failed(EIO);
    if (is_one && size > 1)
        size /= 2;
    return syscall(SYS_pread64, file, bytes, size, place);
}

int fdatasync(int file) {
    begin();
    note_touch();
    int is_one = (is("sync") || is("lost") || is("drop") || is("tear")) && breaks();
    if (is_one) {
        forget(file, !is("sync"));
        if (is("drop") || is("tear"))
            die();
        return failed(EIO);
    }
    forget(file, 0);
    return syscall(SYS_fdatasync, file);
}

ssize_t pwrite(int file, const void *bytes, size_t size, off_t place) { return pwrite64(file, bytes, size, place); }
ssize_t pread(int file, void *bytes, size_t size, off_t place) { return pread64(file, bytes, size, place); }
