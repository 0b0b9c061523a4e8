/*
 * judge FILE: judges packets of standard input by what the file of a pfd holds, and writes a verdict for each. A packet is a line as pfd's
 * judge has it, without that word, but for its protocol, which is a number:
 *
 *     in em0 6 10.0.0.1 1234 192.0.2.1 80
 *
 * judge -l FILE: the same by a file of lines as pfd run takes them: begin, add, define, extend, commit and tset.
 *
 * No pfd may write to the file meanwhile: path.c shows how to read one that is served.
 */
#include <arpa/inet.h>
#include <inttypes.h>
#include <stdio.h>
#include <stdlib.h>
#include <string.h>
#include <sys/stat.h>
#include <wirdalf.h>

/* What the bytes of a file hold, which is named where they are refused. */
static int read_image(const char *path, const uint8_t *bytes, size_t length, struct wirdalf *config)
{
    uint64_t place = 0;
    uint32_t result = wirdalf_read(bytes, length, config, &place);

    if (result != WIRDALF_OK)
        fprintf(stderr, "judge: %s: can't be read: %" PRIu32 " at %" PRIu64 "\n", path, result, place);
    return result == WIRDALF_OK;
}

/* What the lines of a file make; the one that is refused is named. */
static int read_lines(const char *path, const uint8_t *text, size_t length, struct wirdalf *config)
{
    struct wirdalf_fault fault;
    uint32_t result = wirdalf_lines(text, length, config, &fault);

    if (result == WIRDALF_REFUSED)
        fprintf(stderr, "judge: %s: line %" PRIu64 ": %s\n", path, fault.line, fault.reply);
    else if (result == WIRDALF_UNFIT)
        fprintf(stderr, "judge: %s: line %" PRIu64 ": not a line that makes rules or tables\n", path, fault.line);
    else if (result != WIRDALF_OK)
        fprintf(stderr, "judge: %s: out of memory\n", path);
    return result == WIRDALF_OK;
}

/* Reads a file's bytes by one of these two. Returns whether there is a configuration. It isn't mapped: a pfd that serves it may write. */
static int read_file(const char *path, int is_lines, struct wirdalf *config)
{
    struct stat about;
    FILE *file = fopen(path, "rb");
    uint8_t *bytes = NULL;
    int is_read = 0;

    if (file != NULL && fstat(fileno(file), &about) == 0 && about.st_size > 0)
        bytes = malloc((size_t)about.st_size);
    if (bytes != NULL && fread(bytes, 1, (size_t)about.st_size, file) == (size_t)about.st_size)
        is_read = (is_lines ? read_lines : read_image)(path, bytes, (size_t)about.st_size, config);
    else
        fprintf(stderr, "judge: %s: can't be read, or is empty\n", path);
    free(bytes);
    if (file != NULL)
        fclose(file);
    return is_read;
}

/* Reads an address, and says of which family it is; 0 for none. */
static uint8_t read_address(const char *text, uint8_t address[16])
{
    if (inet_pton(AF_INET, text, address) == 1)
        return WIRDALF_V4;
    return inet_pton(AF_INET6, text, address) == 1 ? WIRDALF_V6 : 0;
}

/* Reads a packet from a line. What isn't one is left to wirdalf_judge. */
static void read_packet(const char *line, struct wirdalf_packet *packet)
{
    char way[4] = "", from[48] = "", to[48] = "";

    memset(packet, 0, sizeof *packet);
    if (sscanf(line, "%3s %15s %" SCNu8 " %47s %" SCNu16 " %47s %" SCNu16, way, packet->interface, &packet->protocol, from,
               &packet->source_port, to, &packet->destination_port) != 7)
        return;
    packet->way = strcmp(way, "in") == 0 ? WIRDALF_IN : strcmp(way, "out") == 0 ? WIRDALF_OUT : 0;
    packet->family = read_address(from, packet->source);
    if (read_address(to, packet->destination) != packet->family)
        packet->family = 0;
}

/* Writes a verdict as pfd's reply to a judge does. */
static void write_verdict(const struct wirdalf_verdict *verdict)
{
    const char *action = verdict->action == WIRDALF_PASS ? "pass" : "block";

    if (verdict->by == WIRDALF_BY_NOTHING)
        printf("no packet\n");
    else if (verdict->by == WIRDALF_BY_STATE)
        printf("%s state %" PRIu64 " %" PRIu32 "\n", action, verdict->state_id, verdict->state_creator);
    else if (verdict->by == WIRDALF_BY_DEFAULT)
        printf("%s default\n", action);
    else if (verdict->path_length == 0)
        printf("%s rule %" PRIu32 "\n", action, verdict->rule);
    else
        printf("%s rule %" PRIu32 " at %s\n", action, verdict->rule, verdict->path);
}

int main(int count, char **words)
{
    struct wirdalf config = WIRDALF_NONE;
    struct wirdalf_packet packet;
    struct wirdalf_verdict verdict;
    char line[256];
    int is_lines = count == 3 && strcmp(words[1], "-l") == 0;

    if (count != 2 && !is_lines) {
        fprintf(stderr, "usage: judge FILE\n       judge -l FILE\n");
        return 2;
    }
    if (!read_file(words[count - 1], is_lines, &config))
        return 1;
    while (fgets(line, sizeof line, stdin) != NULL) {
        read_packet(line, &packet);
        wirdalf_judge(&config, &packet, &verdict);
        write_verdict(&verdict);
    }
    wirdalf_free(config);
    return 0;
}
