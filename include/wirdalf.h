/*
 * wirdalf.h: what a Wirdalf control plane keeps, for a packet path in C.
 *
 * A configuration is read once, from the bytes of a file that pfd serves or from lines, and what it holds never changes. Judging takes no
 * memory and no lock, and can't fail. wirdalf(3) is the manual.
 *
 * What C has to keep to, since no proof looks at C:
 * - Pointers are not null, not even those of empty arrays, aligned as their types want, and point to live values. Arrays have as many
 *   elements as is said. If an argument is written to, no other argument of the call overlaps it, and nobody else writes to any during
 *   the call.
 * - A struct wirdalf is WIRDALF_NONE, or was written by wirdalf_read, wirdalf_lines or wirdalf_clone, which returned WIRDALF_OK. WIRDALF_NONE
 *   may be given only to wirdalf_read, wirdalf_lines and, as the copy, to wirdalf_clone. No other function takes it, not even wirdalf_free,
 *   though free(3) takes a null pointer. One that holds something is freed before it is written to again, or its memory is lost.
 * - pfd may write to the file that it serves while you read it, and then the bytes are of two times. So look at the file's time of change,
 *   st_mtim, before and after you read. Read again if the two differ, or if that time is less than three seconds ago: such times go on in
 *   steps.
 * - A struct wirdalf is in one call at a time, whichever: each call may write to what the struct has of its own, so none takes a const one.
 *   It isn't copied but moved: after it was assigned or handed to another thread, the old one isn't used. Each thread that judges has its
 *   own, made by wirdalf_clone of one that no other call has. It is handed over by a lock, by the start or the join of a thread, or by a
 *   sequentially consistent atomic, from which one thread takes it, by exchange: two that load it and judge are a race.
 * - malloc(3), realloc(3) and free(3) are one allocator for all threads, as long as a configuration lives. They align a block to each power
 *   of two up to 16 that divides its size. No function is called in a signal handler, or in the forked child of a process with threads.
 */
#ifndef WIRDALF_H
#define WIRDALF_H

#include <stddef.h>
#include <stdint.h>

#ifdef __cplusplus
extern "C" {
#endif

/* This header's version: 10,000 times the major number, 100 times the minor one and the third. */
#define WIRDALF_VERSION 100

/* The library's version, which should be that. */
uint32_t wirdalf_version(void);

/* A configuration: one pointer; NULL holds nothing. */
struct wirdalf {
    void *held;
};

/* one that holds nothing */
#define WIRDALF_NONE { NULL }

/* What reading returns. */
enum {
    WIRDALF_OK = 0,
    WIRDALF_BAD_SIZE = 1, /* an odd number of bytes, or fewer than 256 or more than 2^30 */
    WIRDALF_NO_BANK = 2,  /* no disk was formatted here */
    WIRDALF_CORRUPT = 3,  /* what begins at a place of the bytes can't have been left there */
    WIRDALF_MEMORY = 4,   /* out of memory */
    WIRDALF_REFUSED = 5,  /* a line that pfd refuses */
    WIRDALF_UNFIT = 6     /* a line that is another command than begin, add, define, extend, commit and tset */
};

/* Values of fields. */
enum {
    WIRDALF_IN = 1,
    WIRDALF_OUT = 2,
    WIRDALF_V4 = 4,
    WIRDALF_V6 = 6,
    WIRDALF_BLOCK = 0,
    WIRDALF_PASS = 1,
    WIRDALF_BY_NOTHING = 0, /* the struct was no packet's: it is blocked */
    WIRDALF_BY_STATE = 1,
    WIRDALF_BY_RULE = 2,
    WIRDALF_BY_DEFAULT = 3
};

/* A packet. It is one if way, family and protocol have values that stand below, the interface is a name that pfd takes, and the ports are 0
 * unless the protocol is TCP or UDP. */
struct wirdalf_packet {
    uint8_t way;               /* WIRDALF_IN or WIRDALF_OUT */
    uint8_t family;            /* WIRDALF_V4 or WIRDALF_V6 */
    uint8_t protocol;          /* 1 to 255 */
    uint16_t source_port;      /* host order */
    uint16_t destination_port; /* host order */
    uint8_t source[16];        /* network order; IPv4 in the first four */
    uint8_t destination[16];   /* network order */
    char interface[16];        /* 1 to 15 bytes and a zero; nothing but zeros behind it is fastest */
};

/* A verdict. Each field is written: one that its kind has no use for is 0, and then the path is empty. */
struct wirdalf_verdict {
    uint64_t state_id;      /* by a state: its number */
    uint32_t state_creator; /* and the host that made it */
    uint32_t rule;          /* by a rule: its number in its ruleset, from 0 */
    uint8_t by;             /* WIRDALF_BY_* */
    uint8_t action;         /* WIRDALF_PASS or WIRDALF_BLOCK, and nothing else */
    uint8_t keeps_state;    /* by a rule that passes: 1 if it keeps state, else 0 */
    uint8_t path_length;    /* by a rule: how long the path of its ruleset is; 0 is the main ruleset */
    char path[256];         /* and the path, with a zero after it */
};

/* How much a configuration holds. */
struct wirdalf_counts {
    uint64_t tick;
    uint64_t rulesets;
    uint64_t tables;
    uint64_t states;
    uint32_t epoch;
};

/* A line that isn't done. */
struct wirdalf_fault {
    uint64_t line;        /* its number, from 1 */
    uint8_t reply_length; /* how long the reply is; 0 where pfd doesn't refuse the line */
    char reply[64];       /* what pfd replies to it, as "err word 4", with a zero after it */
};

/* What the bytes of a disk hold: a whole file that pfd formatted or serves. Any bytes will do, but nothing may change them during the
 * call: read a file that is served by read(2), and don't map it. At WIRDALF_CORRUPT the place is written, from 0. Unless it returns WIRDALF_OK, the
 * configuration is as it was. */
uint32_t wirdalf_read(const uint8_t *bytes, size_t length, struct wirdalf *config, uint64_t *place);

/* What lines make of nothing, each done in turn as pfd run does it: begin, add, define, extend, commit and tset, comments and empty
 * lines. Any bytes will do. The first line to which pfd wouldn't reply ok or applied is WIRDALF_REFUSED, and another command is
 * WIRDALF_UNFIT: then nothing is made, the configuration is as it was, and the fault is written. At WIRDALF_MEMORY the fault has no
 * meaning. */
uint32_t wirdalf_lines(const uint8_t *text, size_t length, struct wirdalf *config, struct wirdalf_fault *fault);

/* The same once more, for another thread: what it holds is shared. WIRDALF_OK, or WIRDALF_MEMORY: then the copy is as it was. */
uint32_t wirdalf_clone(struct wirdalf *config, struct wirdalf *copy);

/* Lets it go. The last of those that share something frees it. */
void wirdalf_free(struct wirdalf config);

/* What happens to a packet: a state of its flow passes it, else the rules decide. It needs 512 KiB of free stack: most verdicts take a few
 * KiB of it, and where anchor rules lead to very many rules one takes 440. */
void wirdalf_judge(struct wirdalf *config, const struct wirdalf_packet *packet, struct wirdalf_verdict *verdict);

/* The same for each of an array, and how many were judged: as many as there are packets and room for verdicts. */
size_t wirdalf_judge_many(struct wirdalf *config, const struct wirdalf_packet *packets, size_t packet_count,
                          struct wirdalf_verdict *verdicts, size_t verdict_count);

/* What wirdalf_test returns. */
enum { WIRDALF_NO_ENTRY = 0, WIRDALF_IN_TABLE = 1, WIRDALF_NEGATED = 2, WIRDALF_BAD_NAME = 3 };

/* Which entry of a table decides on an address, in network order. A path of "-" is that of the main ruleset. Where there is an entry, its
 * prefix length is written. WIRDALF_BAD_NAME: the path, the table's name or the family is none. */
uint32_t wirdalf_test(struct wirdalf *config, const char *path, size_t path_length, const char *table, size_t table_length,
                      uint8_t family, const uint8_t address[16], uint8_t *prefix_length);

/* The MD5 checksum of the main rules, as pfd's sum answers it. */
void wirdalf_sum(struct wirdalf *config, uint8_t sum[16]);

/* The tick. */
uint64_t wirdalf_tick(struct wirdalf *config);

/* How much it holds. */
void wirdalf_counts(struct wirdalf *config, struct wirdalf_counts *counts);

#ifdef __cplusplus
}
#endif

#endif
