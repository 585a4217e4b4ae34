/* The second tour: two stations journal spawnings and a trial line each and send them as images; the centre replays
 * both into one table, and looks up fish. */
#include <inttypes.h>
#include <stdio.h>
#include <stdlib.h>
#include <string.h>
#include "replica.h"

enum { BLOCKS = 2, RING = BLOCKS * JOURNAL_PAYLOAD, TABLE = 400 };

/* A station's journal, and what it sends. */
struct station {
    const char *name;
    uint64_t words[JOURNAL_WORDS];
    uint8_t ring[RING];
    uint8_t image[BLOCKS * JOURNAL_BLOCK];
    size_t image_len;
};

/* The centre's: a journal that is only loaded and replayed, so that it needs no ring, and the table. */
static uint64_t words[JOURNAL_WORDS];
static uint8_t payload[BLOCKS * JOURNAL_PAYLOAD], front[BLOCKS * JOURNAL_PAYLOAD], replay[BLOCKS * JOURNAL_PAYLOAD];
static uint64_t rows;
static uint8_t table[TABLE], work[TABLE];

static void must(const char *what, uint64_t code) {
    if (code != 0) {
        printf("%s refused: %" PRIu64 "\n", what, JOURNAL_NUMBER(code));
        exit(1);
    }
}

static void spawned(struct station *at, const char *fish, const char *parents) {
    must("append", journal_append_insert(at->words, JOURNAL_WORDS, at->ring, RING, (const uint8_t *)fish, strlen(fish),
        (const uint8_t *)parents, strlen(parents)));
}

static void copy_line(struct station *at, const char *from, const char *to) {
    must("append", journal_append_clone(at->words, JOURNAL_WORDS, at->ring, RING, (const uint8_t *)from, strlen(from),
        (const uint8_t *)to, strlen(to)));
}

static void open_station(struct station *at, const char *name) {
    at->name = name;
    must("open", journal_open(at->words, JOURNAL_WORDS, BLOCKS, RING));
}

static void package(struct station *at) {
    must("package",
        journal_package_in_memory(at->words, JOURNAL_WORDS, at->ring, RING, at->image, sizeof at->image));
    at->image_len = at->words[JOURNAL_WORD_WRITTEN] * JOURNAL_BLOCK;
    printf("%s sends %" PRIu64 " block(s)\n", at->name, at->words[JOURNAL_WORD_WRITTEN]);
}

/* Strips and loads what a station sent. */
static void load(const struct station *at) {
    size_t len = at->image_len / JOURNAL_BLOCK * JOURNAL_PAYLOAD;
    must("open", journal_open(words, JOURNAL_WORDS, BLOCKS, 0));
    must("strip", journal_strip(at->image, at->image_len, payload, sizeof payload));
    must("set front", journal_set_front(words, JOURNAL_WORDS, payload, len, front, sizeof front));
    must("load", journal_load(words, JOURNAL_WORDS, front, sizeof front, NULL, 0, replay, sizeof replay));
}

/* Replays it into the table, entry by entry, until nothing is left. */
static void replay_all(const struct station *at) {
    uint64_t code, entries = 0;
    while ((code = replica_replay(words, JOURNAL_WORDS, replay, sizeof replay, &rows, 1, table, TABLE, work, TABLE))
        == 0) {
        entries++;
    }
    if (code != JOURNAL_NOTHING_THERE) {
        must("replay", code);
    }
    printf("%s replayed: %" PRIu64 " entries, then %" PRIu64 "; %" PRIu64 " rows\n", at->name, entries,
        JOURNAL_NUMBER(code), rows);
}

/* A value is handed back as it is in the table. */
static void look_up(const char *key) {
    uint64_t answer[REPLICA_ANSWER];
    uint64_t code = replica_lookup(&rows, 1, table, TABLE, (const uint8_t *)key, strlen(key), answer, REPLICA_ANSWER);
    if (code == 0) {
        printf("%s: %.*s\n", key, (int)answer[1], table + answer[0]);
    } else {
        printf("%s: refused, %" PRIu64 "\n", key, JOURNAL_NUMBER(code));
    }
}

/* Refused steps change nothing: a copy of all rows that has no room, a key that is too long, and a damaged table. */
static void refuse(void) {
    uint8_t longest[JOURNAL_TO_LIMIT];
    memset(longest, 'x', sizeof longest);
    uint64_t full = replica_clone(&rows, 1, table, TABLE, work, TABLE, NULL, 0, (const uint8_t *)"copy of ", 8);
    uint64_t too_long = replica_clone(&rows, 1, table, TABLE, work, TABLE, NULL, 0, longest, sizeof longest);
    table[TABLE - 1] ^= 1;
    uint64_t damaged = replica_clone(&rows, 1, table, TABLE, work, TABLE, NULL, 0, NULL, 0);
    table[TABLE - 1] ^= 1;
    printf("no room: %" PRIu64 ", a key too long: %" PRIu64 ", a damaged table: %" PRIu64 "; %" PRIu64 " rows\n",
        JOURNAL_NUMBER(full), JOURNAL_NUMBER(too_long), JOURNAL_NUMBER(damaged), rows);
}

int main(void) {
    static struct station north, south;
    open_station(&north, "north");
    spawned(&north, "fish/17", "dam 4, sire 9");
    spawned(&north, "fish/18", "dam 4, sire 9");
    copy_line(&north, "fish/", "trial north/");
    spawned(&north, "fish/18", "dam 4, sire 8");
    package(&north);
    open_station(&south, "south");
    spawned(&south, "fish/19", "dam 5, sire 2");
    copy_line(&south, "fish/19", "trial south/19");
    spawned(&south, "fish/17", "dam 5, sire 9");
    package(&south);

    load(&north);
    replay_all(&north);
    load(&south);
    replay_all(&south);
    look_up("fish/17");        /* changed by the other station */
    look_up("fish/18");        /* changed behind the clone, */
    look_up("trial north/18"); /* which has it as it was */
    look_up("trial south/19");
    look_up("trial south/17"); /* not of that line */
    refuse();
    return 0;
}
