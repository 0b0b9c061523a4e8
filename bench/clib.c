/*
 * What bench/clib measures the library in C by.
 *
 * clib show < IMAGES: of each image, which stands behind its length in four bytes (the highest first), what pfd show writes.
 * clib lines < TEXTS: of each text, given in the same way, the sum of the main rules that its lines make, or the number of the line that
 *     isn't done, with its reply.
 * clib judge FILE < PACKETS: for each line, as way, interface, protocol's number, address, port, address, port, what pfd's judge
 *     replies, by what the file of a pfd holds, and whether state is kept. Each packet is judged alone, with other bytes behind its
 *     interface's name, and in an array: no field may differ, and none that has no use be written. Then it is judged as no packet.
 * clib test FILE < WORDS: for each line, as path, table's name, address, what pfd's test replies but for the entry's address.
 * clib judge-lines FILE < PACKETS: the same by a file of lines.
 * clib time FILE THREADS ROUNDS < PACKETS: judges the packets so many times in each of so many threads, and writes the nanoseconds of a
 *     processor that a packet took, one at a time and in arrays of 256.
 * clib alone FILE < PACKETS: judges each once, and writes nothing.
 * clib stack FILE < PACKETS: how many bytes of a stack their verdicts take, by a file of lines.
 */
#include <arpa/inet.h>
#include <inttypes.h>
#include <pthread.h>
#include <stddef.h>
#include <stdio.h>
#include <stdlib.h>
#include <string.h>
#include <time.h>
#include <wirdalf.h>

/* The structs lie as the library's own do, which have each field at the next place that its alignment allows. */
_Static_assert(sizeof(struct wirdalf) == 8 && offsetof(struct wirdalf, held) == 0, "wirdalf");
_Static_assert(sizeof(struct wirdalf_packet) == 56, "packet");
_Static_assert(offsetof(struct wirdalf_packet, way) == 0 && offsetof(struct wirdalf_packet, family) == 1, "packet");
_Static_assert(offsetof(struct wirdalf_packet, protocol) == 2 && offsetof(struct wirdalf_packet, source_port) == 4, "packet");
_Static_assert(offsetof(struct wirdalf_packet, destination_port) == 6 && offsetof(struct wirdalf_packet, source) == 8, "packet");
_Static_assert(offsetof(struct wirdalf_packet, destination) == 24 && offsetof(struct wirdalf_packet, interface) == 40, "packet");
_Static_assert(sizeof(struct wirdalf_verdict) == 280, "verdict");
_Static_assert(offsetof(struct wirdalf_verdict, state_id) == 0 && offsetof(struct wirdalf_verdict, state_creator) == 8, "verdict");
_Static_assert(offsetof(struct wirdalf_verdict, rule) == 12 && offsetof(struct wirdalf_verdict, by) == 16, "verdict");
_Static_assert(offsetof(struct wirdalf_verdict, action) == 17 && offsetof(struct wirdalf_verdict, keeps_state) == 18, "verdict");
_Static_assert(offsetof(struct wirdalf_verdict, path_length) == 19 && offsetof(struct wirdalf_verdict, path) == 20, "verdict");
_Static_assert(sizeof(struct wirdalf_counts) == 40 && offsetof(struct wirdalf_counts, tick) == 0, "counts");
_Static_assert(offsetof(struct wirdalf_counts, rulesets) == 8 && offsetof(struct wirdalf_counts, tables) == 16, "counts");
_Static_assert(offsetof(struct wirdalf_counts, states) == 24 && offsetof(struct wirdalf_counts, epoch) == 32, "counts");
_Static_assert(sizeof(struct wirdalf_fault) == 80 && offsetof(struct wirdalf_fault, line) == 0, "fault");
_Static_assert(offsetof(struct wirdalf_fault, reply_length) == 8 && offsetof(struct wirdalf_fault, reply) == 9, "fault");
_Static_assert(WIRDALF_VERSION == WANTED_VERSION, "version");

static void stop(const char *why)
{
    fprintf(stderr, "clib: %s\n", why);
    exit(1);
}

static void *room(size_t size)
{
    void *made = malloc(size > 0 ? size : 1);

    if (made == NULL)
        stop("memory");
    return made;
}

static void fill(FILE *file, uint8_t **bytes, size_t *length)
{
    size_t most = 1 << 16, n;

    *bytes = room(most);
    *length = 0;
    while ((n = fread(*bytes + *length, 1, most - *length, file)) > 0) {
        *length += n;
        if (*length == most && (*bytes = realloc(*bytes, most *= 2)) == NULL)
            stop("memory");
    }
}

static struct wirdalf made_of(const char *path, int is_lines)
{
    struct wirdalf config = WIRDALF_NONE;
    struct wirdalf_fault fault = { .line = 0 };
    FILE *file = fopen(path, "rb");
    uint64_t place = 0;
    uint32_t result;
    uint8_t *bytes;
    size_t length;

    if (file == NULL)
        stop("input");
    fill(file, &bytes, &length);
    fclose(file);
    result = is_lines ? wirdalf_lines(bytes, length, &config, &fault) : wirdalf_read(bytes, length, &config, &place);
    free(bytes);
    if (result != WIRDALF_OK) {
        fprintf(stderr, "clib: %" PRIu32 " at %" PRIu64 "\n", result, is_lines ? fault.line : place);
        exit(1);
    }
    return config;
}

static uint8_t address_of(const char *text, uint8_t address[16])
{
    if (inet_pton(AF_INET, text, address) == 1)
        return WIRDALF_V4;
    return inet_pton(AF_INET6, text, address) == 1 ? WIRDALF_V6 : 0;
}

static struct wirdalf_packet packet_of(const char *line)
{
    struct wirdalf_packet packet;
    char way[4] = "", from[48] = "", to[48] = "";

    memset(&packet, 0, sizeof packet);
    if (sscanf(line, "%3s %15s %" SCNu8 " %47s %" SCNu16 " %47s %" SCNu16, way, packet.interface, &packet.protocol, from,
               &packet.source_port, to, &packet.destination_port) != 7)
        stop("a line that is no packet");
    packet.way = strcmp(way, "in") == 0 ? WIRDALF_IN : WIRDALF_OUT;
    packet.family = address_of(from, packet.source);
    if (address_of(to, packet.destination) != packet.family)
        packet.family = 0;
    return packet;
}

static struct wirdalf_packet *packets_of(FILE *file, size_t *count)
{
    struct wirdalf_packet *packets = NULL;
    char line[256];

    for (*count = 0; fgets(line, sizeof line, file) != NULL; ++*count) {
        if ((*count & (*count - 1)) == 0 && (packets = realloc(packets, (*count > 0 ? 2 * *count : 1) * sizeof *packets)) == NULL)
            stop("memory");
        packets[*count] = packet_of(line);
    }
    return packets;
}

static void write_sum(struct wirdalf *config)
{
    uint8_t sum[16];

    wirdalf_sum(config, sum);
    printf("sum ");
    for (size_t i = 0; i < sizeof sum; i++)
        printf("%02x", sum[i]);
    printf("\n");
}

static void show(const uint8_t *bytes, size_t length)
{
    static const char *const faults[] = { "", "bad size", "no bank", "corrupt", "memory" };
    struct wirdalf config = WIRDALF_NONE;
    struct wirdalf_counts counts;
    uint64_t place = 0;
    uint32_t result = wirdalf_read(bytes, length, &config, &place);

    if (result == WIRDALF_CORRUPT)
        printf("pfd: corrupt at %" PRIu64 "\n", place);
    else if (result != WIRDALF_OK)
        printf("pfd: %s\n", faults[result]);
    else {
        wirdalf_counts(&config, &counts);
        printf("epoch %" PRIu32 "\n", counts.epoch);
        write_sum(&config);
        printf("rulesets %" PRIu64 "\ntables %" PRIu64 "\nstates %" PRIu64 "\ntick %" PRIu64 "\n", counts.rulesets, counts.tables,
               counts.states, wirdalf_tick(&config));
        wirdalf_free(config);
    }
    printf(".\n");
}

static void do_lines(const uint8_t *text, size_t length)
{
    struct wirdalf config = WIRDALF_NONE;
    struct wirdalf_fault fault;
    uint32_t result;

    memset(&fault, 0xA5, sizeof fault);
    result = wirdalf_lines(text, length, &config, &fault);
    if (result == WIRDALF_OK) {
        write_sum(&config);
        wirdalf_free(config);
    } else if (config.held != NULL || strlen(fault.reply) != fault.reply_length)
        stop("a fault");
    else if (result == WIRDALF_REFUSED)
        printf("line %" PRIu64 ": %s\n", fault.line, fault.reply);
    else if (result == WIRDALF_UNFIT && fault.reply_length == 0)
        printf("unfit %" PRIu64 "\n", fault.line);
    else
        stop("memory");
    printf(".\n");
}

static void do_all(void (*what)(const uint8_t *, size_t))
{
    uint8_t head[4], *bytes;

    while (fread(head, 1, 4, stdin) == 4) {
        size_t length = (size_t)head[0] << 24 | (size_t)head[1] << 16 | (size_t)head[2] << 8 | head[3];

        bytes = room(length);
        if (fread(bytes, 1, length, stdin) != length)
            stop("input");
        what(bytes, length);
        free(bytes);
    }
}

/* Each action is one of two, each zero is there, and what has no use is 0. */
static void check(const struct wirdalf_verdict *verdict)
{
    int is_rule = verdict->by == WIRDALF_BY_RULE, passes = verdict->action == WIRDALF_PASS;

    if (!passes && verdict->action != WIRDALF_BLOCK)
        stop("an action");
    if (verdict->keeps_state > 1 || (verdict->keeps_state == 1 && (!is_rule || !passes)))
        stop("a state is kept, or not");
    if (verdict->path[verdict->path_length] != 0 || strlen(verdict->path) != verdict->path_length)
        stop("a path without its zero");
    if (!is_rule && (verdict->rule != 0 || verdict->path_length != 0))
        stop("a rule that decides nothing");
    if (verdict->by != WIRDALF_BY_STATE && (verdict->state_id != 0 || verdict->state_creator != 0))
        stop("a state that decides nothing");
    if ((verdict->by == WIRDALF_BY_NOTHING && passes) || (!is_rule && verdict->by != WIRDALF_BY_NOTHING && !passes))
        stop("what decides and what is done");
}

static int is_same(const struct wirdalf_verdict *one, const struct wirdalf_verdict *other)
{
    return one->by == other->by && one->action == other->action && one->keeps_state == other->keeps_state && one->rule == other->rule
           && one->state_id == other->state_id && one->state_creator == other->state_creator && one->path_length == other->path_length
           && memcmp(one->path, other->path, (size_t)one->path_length + 1) == 0;
}

/* Judges into a verdict of which no byte was 0 or 1. */
static void judge_anew(struct wirdalf *config, const struct wirdalf_packet *packet, struct wirdalf_verdict *verdict)
{
    memset(verdict, 0xA5, sizeof *verdict);
    wirdalf_judge(config, packet, verdict);
    check(verdict);
}

/* A field is changed so that the packet is none: it is blocked, by nothing. */
static void judge_none(struct wirdalf *config, struct wirdalf_packet packet, size_t way)
{
    static const char *const names[] = { "", "em/0", "em0 ", "e\xFF" };
    struct wirdalf_verdict verdict;

    if (way == 0)
        packet.way = 3;
    else if (way == 1)
        packet.family = 5;
    else if (way == 2)
        packet.protocol = 0;
    else if (way == 3)
        packet.protocol = 50, packet.source_port = 1;
    else if (way == 4)
        memset(packet.interface, 'a', sizeof packet.interface);
    else
        strcpy(packet.interface, names[way - 5]);
    judge_anew(config, &packet, &verdict);
    if (verdict.by != WIRDALF_BY_NOTHING)
        stop("what is no packet is judged");
}

static void tell(const struct wirdalf_verdict *verdict)
{
    const char *action = verdict->action == WIRDALF_BLOCK ? "block" : "pass", *keeps = verdict->keeps_state ? " keep state" : "";

    if (verdict->by == WIRDALF_BY_NOTHING)
        printf("no packet\n");
    else if (verdict->by == WIRDALF_BY_STATE)
        printf("%s state %" PRIu64 " %" PRIu32 "\n", action, verdict->state_id, verdict->state_creator);
    else if (verdict->by == WIRDALF_BY_DEFAULT)
        printf("%s default\n", action);
    else if (verdict->path_length == 0)
        printf("%s rule %" PRIu32 "%s\n", action, verdict->rule, keeps);
    else
        printf("%s rule %" PRIu32 " at %s%s\n", action, verdict->rule, verdict->path, keeps);
}

static void judge_all(struct wirdalf *config)
{
    size_t count;
    struct wirdalf_packet *packets = packets_of(stdin, &count);
    struct wirdalf_verdict *verdicts = room(count * sizeof *verdicts), one;

    memset(verdicts, 0xA5, count * sizeof *verdicts);
    if (wirdalf_judge_many(config, packets, count, verdicts, count) != count)
        stop("fewer were judged");
    for (size_t i = 0; i < count; i++) {
        struct wirdalf_packet packet = packets[i];
        size_t length = strlen(packet.interface);

        judge_none(config, packet, i % 9);
        judge_anew(config, &packets[i], &one);
        if (!is_same(&one, &verdicts[i]))
            stop("one and many differ");
        memset(packet.interface + length + 1, (int)(i % 255 + 1), sizeof packet.interface - length - 1);
        judge_anew(config, &packet, &one);
        if (!is_same(&one, &verdicts[i]))
            stop("bytes behind a name are judged by");
        tell(&one);
    }
    free(packets);
    free(verdicts);
}

/* The words of a test: which entry decides on an address. */
static void test_all(struct wirdalf *config)
{
    char line[1024], path[512], table[512], address[48];
    uint8_t bytes[16], bits;

    while (fgets(line, sizeof line, stdin) != NULL) {
        uint8_t family;
        uint32_t found;

        if (sscanf(line, "%511s %511s %47s", path, table, address) != 3)
            stop("a line that is no test");
        memset(bytes, 0xA5, sizeof bytes);
        family = address_of(address, bytes);
        bits = 0xA5;
        found = wirdalf_test(config, path, strlen(path), table, strlen(table), family, bytes, &bits);
        if (found != WIRDALF_IN_TABLE && found != WIRDALF_NEGATED && bits != 0xA5)
            stop("a length without an entry");
        if (wirdalf_test(config, path, strlen(path), table, strlen(table), 5, bytes, &bits) != WIRDALF_BAD_NAME)
            stop("a family that is none");
        if (found == WIRDALF_BAD_NAME)
            printf("bad name\n");
        else if (found == WIRDALF_NO_ENTRY)
            printf("nomatch\n");
        else
            printf("%s /%u\n", found == WIRDALF_NEGATED ? "nomatch" : "match", bits);
    }
}

struct run {
    pthread_t thread;
    struct wirdalf config;
    const struct wirdalf_packet *packets;
    size_t count, rounds;
    double alone, together;
};

static double seconds(void)
{
    struct timespec now;

    clock_gettime(CLOCK_THREAD_CPUTIME_ID, &now);
    return (double)now.tv_sec + 1e-9 * (double)now.tv_nsec;
}

static void *measure(void *argument)
{
    struct run *run = argument;
    struct wirdalf_verdict *verdicts = room(run->count * sizeof *verdicts);
    double begun = seconds();

    for (size_t round = 0; round < run->rounds; round++)
        for (size_t i = 0; i < run->count; i++)
            wirdalf_judge(&run->config, &run->packets[i], &verdicts[0]);
    run->alone = seconds() - begun;
    begun = seconds();
    for (size_t round = 0; round < run->rounds; round++)
        for (size_t i = 0; i < run->count; i += 256)
            wirdalf_judge_many(&run->config, run->packets + i, run->count - i < 256 ? run->count - i : 256, verdicts, 256);
    run->together = seconds() - begun;
    free(verdicts);
    return NULL;
}

static void time_all(struct wirdalf *config, size_t threads, size_t rounds)
{
    struct run *runs = room(threads * sizeof *runs);
    double alone = 0, together = 0;
    size_t count;
    struct wirdalf_packet *packets = packets_of(stdin, &count);

    for (size_t i = 0; i < threads; i++) {
        runs[i] = (struct run){ .packets = packets, .count = count, .rounds = rounds };
        if (wirdalf_clone(config, &runs[i].config) != WIRDALF_OK)
            stop("memory");
    }
    for (size_t i = 0; i < threads; i++)
        if (pthread_create(&runs[i].thread, NULL, measure, &runs[i]) != 0)
            stop("threads");
    for (size_t i = 0; i < threads; i++) {
        pthread_join(runs[i].thread, NULL);
        alone += runs[i].alone;
        together += runs[i].together;
        wirdalf_free(runs[i].config);
    }
    printf("%.1f %.1f\n", 1e9 * alone / (double)(threads * rounds * count), 1e9 * together / (double)(threads * rounds * count));
    free(packets);
    free(runs);
}

static void judge_alone(struct wirdalf *config)
{
    size_t count;
    struct wirdalf_packet *packets = packets_of(stdin, &count);
    struct wirdalf_verdict verdict;

    for (size_t i = 0; i < count; i++)
        wirdalf_judge(config, &packets[i], &verdict);
    free(packets);
}

/* One who judges on a stack of its own, and where it begins there. */
struct diver {
    struct wirdalf *config;
    const struct wirdalf_packet *packets;
    size_t count;
    uintptr_t begun;
};

static void *dive(void *argument)
{
    struct diver *diver = argument;
    struct wirdalf_verdict verdict;

    diver->begun = (uintptr_t)&verdict;
    for (size_t i = 0; i < diver->count; i++)
        wirdalf_judge(diver->config, &diver->packets[i], &verdict);
    return NULL;
}

static void measure_stack(struct wirdalf *config)
{
    enum { SIZE = 1 << 21, PAGE = 1 << 12 };
    struct diver diver = { .config = config };
    struct wirdalf_packet *packets = packets_of(stdin, &diver.count);
    pthread_attr_t how;
    pthread_t thread;
    void *stack = aligned_alloc(PAGE, SIZE);
    uint8_t *lowest = stack;

    if (stack == NULL || pthread_attr_init(&how) != 0 || pthread_attr_setstack(&how, stack, SIZE) != 0)
        stop("memory");
    memset(stack, 0xA5, SIZE);
    diver.packets = packets;
    if (pthread_create(&thread, &how, dive, &diver) != 0)
        stop("threads");
    pthread_join(thread, NULL);
    while (*lowest == 0xA5)
        lowest++;
    printf("%zu\n", (size_t)(diver.begun - (uintptr_t)lowest));
    pthread_attr_destroy(&how);
    free(packets);
    free(stack);
}

int main(int count, char **words)
{
    struct wirdalf config;
    int is_lines;

    if (count == 2 && (strcmp(words[1], "show") == 0 || strcmp(words[1], "lines") == 0)) {
        do_all(words[1][0] == 's' ? show : do_lines);
        return 0;
    }
    if (count < 3 || wirdalf_version() != WIRDALF_VERSION)
        stop("words, or a library of another version");
    is_lines = strcmp(words[1], "judge-lines") == 0 || strcmp(words[1], "stack") == 0;
    config = made_of(words[2], is_lines);
    if (count == 3 && strncmp(words[1], "judge", 5) == 0)
        judge_all(&config);
    else if (count == 3 && strcmp(words[1], "test") == 0)
        test_all(&config);
    else if (count == 5 && strcmp(words[1], "time") == 0)
        time_all(&config, (size_t)atol(words[3]), (size_t)atol(words[4]));
    else if (count == 3 && strcmp(words[1], "alone") == 0)
        judge_alone(&config);
    else if (count == 3 && strcmp(words[1], "stack") == 0)
        measure_stack(&config);
    else
        stop("words");
    wirdalf_free(config);
    return 0;
}
