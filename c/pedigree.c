/* The tour: a small pedigree is journalled and stored on the unit's card, the power goes, and the pedigree is replayed.
 *
 * pedigree CARD [STORES]. The card is a file, made where there is none, and formatted where it is not. What was stored
 * as an image, up to its last store, survives; what was still pending in the ring does not. With STORES the power goes
 * at the block store behind so many, and the program ends there. Of a card that is formatted already, what is found is
 * replayed, and that is all: so a unit begins again after a cut. */
#define _POSIX_C_SOURCE 200809L
#include <inttypes.h>
#include <limits.h>
#include <stdio.h>
#include <stdlib.h>
#include <string.h>
#include "card_file.h"
#include "journal.h"

enum { BLOCKS = 4, RING = BLOCKS * JOURNAL_PAYLOAD, MARKER = 1000, SHOWN = 40 };

static uint64_t words[JOURNAL_WORDS];
static uint8_t ring[RING];
static uint8_t image[BLOCKS * JOURNAL_BLOCK];
static uint8_t payload[BLOCKS * JOURNAL_PAYLOAD];
static uint8_t front[BLOCKS * JOURNAL_PAYLOAD], back[BLOCKS * JOURNAL_PAYLOAD], replay[BLOCKS * JOURNAL_PAYLOAD];
static uint8_t card[(2 + BLOCKS) * JOURNAL_BLOCK]; /* in memory, and as a file */
static struct card_file file;

static void must(const char *what, uint64_t code) {
    if (code != 0) {
        printf("%s refused: %" PRIu64 "\n", what, JOURNAL_NUMBER(code));
        exit(1);
    }
}

static void insert(const char *key, const char *value) {
    must("append", journal_append_insert(words, JOURNAL_WORDS, ring, RING, (const uint8_t *)key, strlen(key),
        (const uint8_t *)value, strlen(value)));
}

static void copy_line(const char *from, const char *to) {
    must("append", journal_append_clone(words, JOURNAL_WORDS, ring, RING, (const uint8_t *)from, strlen(from),
        (const uint8_t *)to, strlen(to)));
}

/* The markers of four fish: more than a block of them. */
static void insert_markers(char first) {
    for (int k = 0; k < 4; k++) {
        char key[] = "marker/?", marker[MARKER + 1] = "";
        key[7] = (char)(first + k);
        memset(marker, "ACGT"[k], MARKER);
        insert(key, marker);
    }
}

/* A technician closes a session and finds one spawning missing. */
static void take_back(void) {
    must("thaw", journal_thaw(words, JOURNAL_WORDS));
    printf("taken back: %" PRIu64 " entries in memory\n", words[JOURNAL_WORD_MEMORY_ENTRIES]);
}

/* A 32-bit number of the card. */
static uint64_t number_at(size_t at) {
    return card[at] | card[at + 1] << 8 | card[at + 2] << 16 | (uint64_t)card[at + 3] << 24;
}

/* Where in the card the block behind an interval is. */
static uint64_t behind(uint64_t start, uint64_t len) {
    uint64_t block, address;
    must("next start", journal_place_next_start(BLOCKS, start, len, &block, 1));
    must("place of block", journal_place_of_block(BLOCKS, block, &address, 1));
    return address;
}

/* Stores the frozen list's image: one call for each block store, and the block is on the medium before the next. */
static void to_card(void) {
    uint64_t written = words[JOURNAL_WORD_WRITTEN], stored = 1;
    must("freeze", journal_freeze(words, JOURNAL_WORDS));
    must("package", journal_package_frozen(words, JOURNAL_WORDS, ring, RING, image, sizeof image));
    uint64_t blocks = words[JOURNAL_WORD_WRITTEN] - written;
    uint64_t start = number_at(JOURNAL_CARD_START), len = number_at(JOURNAL_CARD_LENGTH);
    for (uint64_t made = 0; stored; made++) {
        must("store", journal_card_store(BLOCKS, card, sizeof card, image, blocks * JOURNAL_BLOCK, made, &stored, 1));
        if (stored) {
            card_file_store(&file, card, made < blocks ? behind(start, len + made) : 0);
        }
    }
    printf("on the card: %" PRIu64 " block(s)\n", blocks);
}

/* Drops the oldest batch, whose blocks are used again. */
static void release(void) {
    uint64_t blocks;
    must("release", journal_card_release(BLOCKS, card, sizeof card, &blocks, 1));
    card_file_store(&file, card, 0);
    uint64_t left = number_at(JOURNAL_CARD_LENGTH);
    must("update written", journal_update_written(words, JOURNAL_WORDS, left));
    printf("released: %" PRIu64 " block(s), %" PRIu64 " left\n", blocks, left);
}

/* Prints the replay's entries, from the first to the last. Of a long value, its length. */
static void print_replay(void) {
    uint64_t top[JOURNAL_TOP];
    uint64_t code;
    while ((code = journal_top(words, JOURNAL_WORDS, replay, sizeof replay, top, JOURNAL_TOP)) == 0) {
        printf("%s %.*s ", top[0] == JOURNAL_CLONE ? "clone " : "insert", (int)top[1], replay + top[2]);
        if (top[3] > SHOWN) {
            printf("%" PRIu64 " bytes\n", top[3]);
        } else {
            printf("%.*s\n", (int)top[3], replay + top[4]);
        }
        must("pop", journal_pop(words, JOURNAL_WORDS, replay, sizeof replay));
    }
    printf("then %" PRIu64 ": nothing is left\n", JOURNAL_NUMBER(code));
}

/* Find checks every live block. The payload is set as front, an empty one as back; both are loaded as one range. */
static void replay_card(void) {
    uint64_t blocks;
    must("open", journal_open(words, JOURNAL_WORDS, BLOCKS, RING));
    must("find", journal_card_find(BLOCKS, card, sizeof card, payload, sizeof payload, &blocks, 1));
    printf("found: %" PRIu64 " block(s)\n", blocks);
    must("set front", journal_set_front(words, JOURNAL_WORDS, payload, blocks * JOURNAL_PAYLOAD, front, sizeof front));
    must("set back", journal_set_back(words, JOURNAL_WORDS, NULL, 0, back, sizeof back));
    must("load", journal_load(words, JOURNAL_WORDS, front, sizeof front, back, sizeof back, replay, sizeof replay));
    print_replay();
    must("set written", journal_set_written(words, JOURNAL_WORDS, blocks));
}

/* Three inserts go to the card, then markers and a clone; a fourth insert and another clone are still in the ring. */
static void first_session(void) {
    must("open", journal_open(words, JOURNAL_WORDS, BLOCKS, RING));
    insert("fish/17", "dam 4, sire 9");
    insert("fish/18", "dam 4, sire 9");
    must("freeze", journal_freeze(words, JOURNAL_WORDS));
    take_back();
    insert("fish/19", "dam 4, sire 9");
    to_card();
    insert_markers('1');
    copy_line("fish/", "trial/");
    to_card();
    insert("fish/20", "still in the ring");
    copy_line("fish/", "second trial/");
}

/* The oldest batch has to go; what comes then goes to the region's last block and, behind it, to its first. */
static void second_session(void) {
    release();
    insert("fish/20", "dam 4, sire 9");
    insert_markers('5');
    to_card();
}

/* What staff look at before they unplug a unit. */
static void print_waiting(void) {
    uint64_t clones;
    must("waiting clones", journal_waiting_clones(words, JOURNAL_WORDS, &clones, 1));
    printf("clones waiting: %" PRIu64 "\n", clones);
}

/* All that is in memory is lost. The card's file is not. */
static void power_goes(void) {
    memset(words, 0xff, sizeof words);
    memset(ring, 0xff, sizeof ring);
    memset(card, 0xff, sizeof card);
    uint64_t code = journal_freeze(words, JOURNAL_WORDS);
    printf("a damaged record is refused: %" PRIu64 "\n", JOURNAL_NUMBER(code));
    card_file_read(&file, card, sizeof card);
}

/* A flipped bit in the last live block is found, and the block named, counted from the live start. */
static void flip_a_bit(void) {
    uint64_t blocks;
    card[behind(number_at(JOURNAL_CARD_START), number_at(JOURNAL_CARD_LENGTH) - 1) + 100] ^= 1;
    uint64_t code = journal_card_find(BLOCKS, card, sizeof card, payload, sizeof payload, &blocks, 1);
    printf("a flipped bit is refused: %" PRIu64 ", block %" PRIu64 "\n", JOURNAL_NUMBER(code), JOURNAL_BLOCK_OF(code));
}

int main(int argc, char **argv) {
    if (argc < 2 || argc > 3) {
        fprintf(stderr, "usage: pedigree CARD [STORES]\n");
        return 2;
    }
    uint64_t blocks;
    file = card_file_open(argv[1], sizeof card, argc > 2 ? strtoul(argv[2], NULL, 10) : ULONG_MAX);
    card_file_read(&file, card, sizeof card);
    uint64_t code = journal_card_find(BLOCKS, card, sizeof card, payload, sizeof payload, &blocks, 1);
    if (code != JOURNAL_CARD_UNFORMED) {
        replay_card();
        return 0;
    }
    printf("not formatted: %" PRIu64 "\n", JOURNAL_NUMBER(code));
    must("format", journal_card_format(BLOCKS, card, sizeof card));
    card_file_store(&file, card, 0);

    first_session();
    print_waiting();
    power_goes();
    replay_card();
    second_session();
    power_goes();
    replay_card();
    flip_a_bit();
    return 0;
}
