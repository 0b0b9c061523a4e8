/* Loaded before the C library's own, it refuses the growth of memory whose number REFUSE names, or each from the one on that REFUSE_FROM
   names, and says so on standard error. */
#include <stdlib.h>
#include <unistd.h>

extern void *__libc_malloc(size_t);
extern void *__libc_realloc(void *, size_t);

static long number_in(const char *name) {
    const char *number = getenv(name);
    return number ? atol(number) : 0;
}

static int is_refused(void) {
    static long asked, one = -1, from;
    if (one < 0) {
        one = number_in("REFUSE");
        from = number_in("REFUSE_FROM");
    }
    asked++;
    if (asked != one && (from == 0 || asked < from))
        return 0;
    return write(2, "refused\n", 8) == 8;
}

void *malloc(size_t size) { return is_refused() ? NULL : __libc_malloc(size); }
void *realloc(void *old, size_t size) { return is_refused() ? NULL : __libc_realloc(old, size); }
