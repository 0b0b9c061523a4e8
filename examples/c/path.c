/*
 * path FILE SECONDS: four threads judge by what the file of a pfd holds, and the main thread reads it again when pfd has changed it, ten
 * times a second. Each thread has a configuration of its own and two mailboxes: one for the next, which it takes between two bursts, and
 * one by which it gives the old one back. So no thread waits, and the main thread alone frees what the old ones shared. A line tells of
 * each configuration, and the last one how many packets were judged and how many configurations were read.
 */
#include <inttypes.h>
#include <pthread.h>
#include <stdatomic.h>
#include <stdio.h>
#include <stdlib.h>
#include <string.h>
#include <sys/stat.h>
#include <time.h>
#include <wirdalf.h>

enum { THREADS = 4, BURST = 64, YOUNG_SECONDS = 2 };

struct worker {
    pthread_t thread;
    _Atomic(void *) next; /* the next configuration, or NULL; the thread alone takes it */
    _Atomic(void *) old;  /* one that is done with, or NULL; the main thread alone takes it */
    struct wirdalf config;
    uint64_t judged;
    int is_due; /* whether it has yet to be given what was read last; the main thread's */
};

/* The bytes of a file as it was last read, and when it was changed then. */
struct image {
    uint8_t *bytes;
    size_t length;
    struct timespec changed;
};

static atomic_bool is_over;

static int is_same_time(const struct timespec *one, const struct timespec *other)
{
    return one->tv_sec == other->tv_sec && one->tv_nsec == other->tv_nsec;
}

/* A file's time goes on in steps, of up to two seconds: one so young may be changed again, and keep it. */
static int is_young(const struct timespec *changed)
{
    struct timespec now;

    return clock_gettime(CLOCK_REALTIME, &now) != 0 || now.tv_sec - changed->tv_sec <= YOUNG_SECONDS;
}

/* Reads a whole file, if it isn't changed meanwhile. */
static int read_file(const char *path, struct image *image)
{
    struct stat before, after;
    FILE *file = fopen(path, "rb");
    int is_read = 0;

    if (file == NULL)
        return 0;
    image->bytes = NULL;
    if (fstat(fileno(file), &before) == 0 && before.st_size > 0 && (image->bytes = malloc((size_t)before.st_size)) != NULL) {
        image->length = (size_t)before.st_size;
        image->changed = before.st_mtim;
        is_read = fread(image->bytes, 1, image->length, file) == image->length && fstat(fileno(file), &after) == 0
                  && is_same_time(&before.st_mtim, &after.st_mtim);
    }
    fclose(file);
    if (!is_read)
        free(image->bytes);
    return is_read;
}

/* Whether the file isn't what was last read, which it then is. It isn't even looked at where its time says that it is the same. */
static int is_changed(const char *path, struct image *last, int *was_young)
{
    struct stat about;
    struct image image;
    int is_new;

    if (stat(path, &about) != 0 || (is_same_time(&about.st_mtim, &last->changed) && !*was_young))
        return 0;
    *was_young = is_young(&about.st_mtim);
    if (!read_file(path, &image)) {
        *was_young = 1;
        return 0;
    }
    is_new = image.length != last->length || memcmp(image.bytes, last->bytes, image.length) != 0;
    free(last->bytes);
    *last = image;
    return is_new;
}

/* Where packets would come from. */
static void receive(struct wirdalf_packet *packets, uint64_t seed)
{
    memset(packets, 0, BURST * sizeof *packets);
    for (size_t i = 0; i < BURST; i++) {
        packets[i] = (struct wirdalf_packet){ .way = WIRDALF_IN, .family = WIRDALF_V4, .protocol = 6, .interface = "em0" };
        packets[i].source[0] = 10;
        packets[i].source[3] = (uint8_t)(seed + i);
        packets[i].destination[0] = 192;
        packets[i].source_port = 1024;
        packets[i].destination_port = (uint16_t)(seed % 1024);
    }
}

/* Takes the next configuration, once the main thread has taken the one that was given back before. */
static void take_next(struct worker *worker)
{
    void *next;

    if (atomic_load(&worker->old) != NULL || (next = atomic_exchange(&worker->next, NULL)) == NULL)
        return;
    atomic_store(&worker->old, worker->config.held);
    worker->config.held = next;
}

static void *work(void *argument)
{
    struct worker *worker = argument;
    struct wirdalf_packet packets[BURST];
    struct wirdalf_verdict verdicts[BURST];
    struct timespec wait = { 0, 1000000 };

    while (!atomic_load(&is_over)) {
        take_next(worker);
        if (worker->config.held == NULL) {
            nanosleep(&wait, NULL);
            continue;
        }
        receive(packets, worker->judged);
        worker->judged += wirdalf_judge_many(&worker->config, packets, BURST, verdicts, BURST);
    }
    return NULL;
}

/* Frees the configuration in a mailbox, if there is one. */
static void empty(_Atomic(void *) *mailbox)
{
    struct wirdalf config = { atomic_exchange(mailbox, NULL) };

    if (config.held != NULL)
        wirdalf_free(config);
}

/* Gives each worker a clone that has yet to get one; one for whom there is no memory gets it later. */
static void hand_out(struct wirdalf *config, struct worker *workers)
{
    for (size_t i = 0; i < THREADS; i++) {
        struct wirdalf copy = WIRDALF_NONE;

        empty(&workers[i].old);
        if (!workers[i].is_due || wirdalf_clone(config, &copy) != WIRDALF_OK)
            continue;
        empty(&workers[i].next);
        atomic_store(&workers[i].next, copy.held);
        workers[i].is_due = 0;
    }
}

/* Reads the configuration of an image, and has it given to each worker. Returns whether there is one. */
static int take_image(const struct image *image, struct wirdalf *config, struct worker *workers)
{
    struct wirdalf read = WIRDALF_NONE;
    uint64_t place;

    if (wirdalf_read(image->bytes, image->length, &read, &place) != WIRDALF_OK)
        return 0;
    if (config->held != NULL)
        wirdalf_free(*config);
    *config = read;
    for (size_t i = 0; i < THREADS; i++)
        workers[i].is_due = 1;
    return 1;
}

/* Waits for the workers, and frees all that they have. Returns how many packets they judged. */
static uint64_t stop(struct worker *workers)
{
    uint64_t judged = 0;

    atomic_store(&is_over, 1);
    for (size_t i = 0; i < THREADS; i++) {
        pthread_join(workers[i].thread, NULL);
        judged += workers[i].judged;
        empty(&workers[i].next);
        empty(&workers[i].old);
        if (workers[i].config.held != NULL)
            wirdalf_free(workers[i].config);
    }
    return judged;
}

int main(int count, char **words)
{
    static struct worker workers[THREADS];
    struct wirdalf config = WIRDALF_NONE;
    struct wirdalf_counts counts;
    struct image image = { 0 };
    struct timespec wait = { 0, 100000000 };
    uint64_t read = 0;
    int was_young = 1;

    if (count != 3) {
        fprintf(stderr, "usage: path FILE SECONDS\n");
        return 2;
    }
    for (size_t i = 0; i < THREADS; i++)
        if (pthread_create(&workers[i].thread, NULL, work, &workers[i]) != 0)
            return 1;
    for (int turns = 10 * atoi(words[2]); turns > 0; turns--) {
        if (is_changed(words[1], &image, &was_young)) {
            if (take_image(&image, &config, workers)) {
                wirdalf_counts(&config, &counts);
                printf("read %" PRIu64 ": %" PRIu64 " rulesets\n", ++read, counts.rulesets);
                fflush(stdout);
            } else {
                image.length = 0;
                was_young = 1;
            }
        }
        if (config.held != NULL)
            hand_out(&config, workers);
        nanosleep(&wait, NULL);
    }
    printf("judged %" PRIu64 " read %" PRIu64 "\n", stop(workers), read);
    if (config.held != NULL)
        wirdalf_free(config);
    free(image.bytes);
    return 0;
}
