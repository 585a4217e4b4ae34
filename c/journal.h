/* Nungakes for C: a proved journal for tagging units. Link with libjournal_c.a, which `tools/archive journal_c` writes:
 * Linux objects for x86-64 with SSE2, System V calls. It asks its host for memcpy, memmove and memset, nothing else.
 *
 * Every function is proved to meet its contract whatever numbers and bytes it is handed. A slice is a pointer and a
 * count of ELEMENTS. The caller owes only this:
 * - pointers are valid for their counts and aligned for their type, and the memory is initialised;
 * - a slice that a function may write (one that is not const) overlaps no other slice of the same call;
 * - an empty slice may be NULL, with count 0;
 * - one caller at a time uses a record and what is lent with it. Different records may be used in parallel: there is
 *   no writable static data.
 *
 * A function gives 0, or a code: the number of its refusal (below), 12 with 256 times the block. Take the two apart by
 * JOURNAL_NUMBER and JOURNAL_BLOCK_OF. A refused call changes nothing: no word and no byte. At each function stand the
 * numbers that it may give, in the order of their tests. */
#ifndef JOURNAL_H
#define JOURNAL_H

#include <stddef.h>
#include <stdint.h>

#ifdef __cplusplus
extern "C" {
#endif

#define JOURNAL_LIBRARY_VERSION "0.8.0"

/* A code's number; and of JOURNAL_CHECKSUM_DIFFERS the lowest block that differs. */
#define JOURNAL_NUMBER(code) ((code) & 255)
#define JOURNAL_BLOCK_OF(code) ((code) >> 8)

/* Why a call says no. */
#define JOURNAL_SIZE_OUT_OF_RANGE 1   /* N is not 1 to JOURNAL_MOST_BLOCKS, or R more than JOURNAL_MOST_RING */
#define JOURNAL_COUNTS_DISAGREE 2     /* a record or table is damaged, or a lent buffer is not as long as it says */
#define JOURNAL_FIRST_TOO_LONG 3      /* more than JOURNAL_FIRST_LIMIT first bytes */
#define JOURNAL_SECOND_TOO_LONG 4     /* more than JOURNAL_VALUE_LIMIT in an insert, JOURNAL_TO_LIMIT in a clone */
#define JOURNAL_REGION_FULL 5         /* no room in the region's N blocks */
#define JOURNAL_RING_FULL 6           /* no room in the ring */
#define JOURNAL_ENTRIES_PENDING 7     /* pending entries forbid it */
#define JOURNAL_NOTHING_THERE 8
#define JOURNAL_OUTPUT_TOO_SHORT 9
#define JOURNAL_LENGTH_TOO_LARGE 10   /* written length too large */
#define JOURNAL_IMAGE_NOT_WHOLE 11    /* an image is whole blocks of JOURNAL_BLOCK bytes */
#define JOURNAL_CHECKSUM_DIFFERS 12   /* with 256 times the lowest damaged block */
#define JOURNAL_PAYLOAD_NOT_WHOLE 13  /* payload is whole blocks of JOURNAL_PAYLOAD bytes, at most N */
#define JOURNAL_UNREADABLE 14         /* a range, or the replay's entry, does not read */
#define JOURNAL_RING_UNREADABLE 15    /* the ring's pending bytes are not the counted entries and clones */
#define JOURNAL_PLACE_NOT_VALID 16    /* interval or location not valid */
#define JOURNAL_NO_FREEZE 17          /* no freeze is remembered */
#define JOURNAL_CARD_UNFORMED 18      /* a card of another length, or whose block 0 is not of its form */
#define JOURNAL_CARD_FULL 19          /* no room on the card for the image's blocks */
#define JOURNAL_KEY_TOO_LONG 20       /* a clone would make a key of more than JOURNAL_FIRST_LIMIT bytes */
#define JOURNAL_TABLE_FULL 21         /* no room in the replica's table for the resulting rows */
#define JOURNAL_NO_KEY 22             /* an insert without a key is not appended */

/* Sizes and limits. */
#define JOURNAL_BLOCK 4096            /* bytes of a block of an image: 32 of checksum, then */
#define JOURNAL_PAYLOAD 4064          /* bytes of payload */
#define JOURNAL_MOST_BLOCKS 1024      /* of a region */
#define JOURNAL_MOST_RING 8388608     /* bytes of a ring; one of JOURNAL_PAYLOAD x N never refuses with 6 */
#define JOURNAL_FIRST_LIMIT 512       /* bytes of an insert's key, of a clone's from */
#define JOURNAL_VALUE_LIMIT 16384     /* bytes of an insert's value */
#define JOURNAL_TO_LIMIT 512          /* bytes of a clone's to */

/* The record: so many 64-bit words that the caller keeps as they are between calls. Words behind these are neither
 * read nor changed. A record that is shorter, of another layout or otherwise damaged is refused with 2. */
#define JOURNAL_WORDS 21
#define JOURNAL_LAYOUT 3              /* what stands at JOURNAL_WORD_LAYOUT */

/* The words' places, for those who want to read them. */
#define JOURNAL_WORD_LAYOUT 0
#define JOURNAL_WORD_N 1              /* blocks of the region */
#define JOURNAL_WORD_R 2              /* bytes of the ring */
#define JOURNAL_WORD_START 3          /* place in the ring of the first pending byte */
#define JOURNAL_WORD_FROZEN_ENTRIES 4
#define JOURNAL_WORD_FROZEN_BYTES 5
#define JOURNAL_WORD_MEMORY_ENTRIES 6
#define JOURNAL_WORD_MEMORY_BYTES 7
#define JOURNAL_WORD_WRITTEN 8        /* blocks that were handed out; a packaging adds those of its image */
#define JOURNAL_WORD_FROZEN_BLOCKS 9  /* blocks that the frozen list takes */
#define JOURNAL_WORD_REPLAY_PLACE 10
#define JOURNAL_WORD_REPLAY_BYTES 11
#define JOURNAL_WORD_REPLAY_ENTRIES 12
#define JOURNAL_WORD_FRONT_PRESENT 13 /* 0 or 1; 0 blocks where absent */
#define JOURNAL_WORD_FRONT_BLOCKS 14
#define JOURNAL_WORD_BACK_PRESENT 15
#define JOURNAL_WORD_BACK_BLOCKS 16
#define JOURNAL_WORD_CLONES 17        /* clones that are pending, in both lists together */
#define JOURNAL_WORD_LAST_ENTRIES 18  /* what the last freeze that moved any entries moved, for a thaw */
#define JOURNAL_WORD_LAST_BYTES 19
#define JOURNAL_WORD_LAST_BLOCKS 20   /* blocks that it added; all three are 0 where no freeze is remembered */

/* An empty journal of a region of n blocks and a ring of r bytes: 1; 9 where there are fewer words. */
uint64_t journal_open(uint64_t *words, size_t words_len, uint64_t n, uint64_t r);

/* Append to the in-memory list: 2, 3, 4, 22, 5, 6. The ring is the one lent to every call of this journal, exactly r
 * bytes; only appends write it. An insert has a key of one byte at least; either piece of a clone may be empty. What an
 * older library took without a key is packaged, loaded and replayed as any other entry. */
uint64_t journal_append_insert(uint64_t *words, size_t words_len, uint8_t *ring, size_t ring_len,
    const uint8_t *key, size_t key_len, const uint8_t *value, size_t value_len);
uint64_t journal_append_clone(uint64_t *words, size_t words_len, uint8_t *ring, size_t ring_len,
    const uint8_t *from, size_t from_len, const uint8_t *to, size_t to_len);

/* Move the in-memory list behind the frozen one: 2. Where that moves any entries, it is remembered for a thaw. */
uint64_t journal_freeze(uint64_t *words, size_t words_len);

/* Take back the last freeze that moved any entries: 2, 17. They go in front of the in-memory list, so that appends made
 * since stay behind them, and the freeze's blocks are taken off. Packaging the frozen list forgets that freeze, and so
 * does a thaw. No ring is lent, since no byte of it moves. */
uint64_t journal_thaw(uint64_t *words, size_t words_len);

/* Write the frozen list's image to the start of `out`, and empty the list: 2, 8, 15, 9. The ring is exactly r bytes,
 * `out` at least JOURNAL_BLOCK for each block: those at JOURNAL_WORD_FROZEN_BLOCKS before the call, by which
 * JOURNAL_WORD_WRITTEN grows.
 * Until it is stored, the image in `out` is the only copy of these entries. journal_card_store stores it so that a
 * power cut leaves the blocks before it, or those and the image. */
uint64_t journal_package_frozen(uint64_t *words, size_t words_len, const uint8_t *ring, size_t ring_len,
    uint8_t *out, size_t out_len);

/* The same of the in-memory list, with nothing frozen: 2, 7, 8, 15, 9. Its blocks are (in-memory bytes + 8) /
 * JOURNAL_PAYLOAD, rounded up. */
uint64_t journal_package_in_memory(uint64_t *words, size_t words_len, const uint8_t *ring, size_t ring_len,
    uint8_t *out, size_t out_len);

/* Set the written blocks of a journal with nothing pending, as after a recovery: 2, 7, 10. */
uint64_t journal_set_written(uint64_t *words, size_t words_len, uint64_t len);

/* Lower the written blocks, when the oldest were dropped: 2, 10. */
uint64_t journal_update_written(uint64_t *words, size_t words_len, uint64_t len);

/* Queries: one word of answer, 0 or 1, or the written blocks, or the clones that are pending in both lists together:
 * 2; 9 where there is no word. */
uint64_t journal_has_frozen(const uint64_t *words, size_t words_len, uint64_t *answer, size_t answer_len);
uint64_t journal_has_in_memory(const uint64_t *words, size_t words_len, uint64_t *answer, size_t answer_len);
uint64_t journal_get_written(const uint64_t *words, size_t words_len, uint64_t *answer, size_t answer_len);
uint64_t journal_waiting_clones(const uint64_t *words, size_t words_len, uint64_t *answer, size_t answer_len);
uint64_t journal_is_replay_empty(const uint64_t *words, size_t words_len, uint64_t *answer, size_t answer_len);
uint64_t journal_has_front(const uint64_t *words, size_t words_len, uint64_t *answer, size_t answer_len);
uint64_t journal_has_back(const uint64_t *words, size_t words_len, uint64_t *answer, size_t answer_len);

/* An image's payload to the start of `out`, if every checksum agrees: 11, 9, 12. `out` is at least JOURNAL_PAYLOAD
 * bytes for each block of the image. */
uint64_t journal_strip(const uint8_t *image, size_t image_len, uint8_t *out, size_t out_len);

/* Payload of whole blocks, at most n, copied to the start of a buffer, at least as long, that the caller keeps until
 * the load: 2, 13, 9. No blocks is a payload too. Front is read before back: front has the live blocks up to the
 * region's end, back those from block 0 on. */
uint64_t journal_set_front(uint64_t *words, size_t words_len, const uint8_t *payload, size_t payload_len,
    uint8_t *front, size_t front_len);
uint64_t journal_set_back(uint64_t *words, size_t words_len, const uint8_t *payload, size_t payload_len,
    uint8_t *back, size_t back_len);

/* Read front, then back, as one range, and put its entries to the start of the replay buffer: 2, 14, 9. Front and back
 * are at least as long as they were set, or anything where they are absent; the replay buffer suffices if it is as
 * long as the payloads of both. */
uint64_t journal_load(uint64_t *words, size_t words_len, const uint8_t *front, size_t front_len,
    const uint8_t *back, size_t back_len, uint8_t *replay, size_t replay_len);

/* The replay's next entry: 2, 8, 14; 9 where there are fewer words. Its kind, then first length and place, second
 * length and place in the replay buffer, which is as the load left it and at least as long as what was loaded. */
#define JOURNAL_TOP 5                 /* words of the answer */
#define JOURNAL_INSERT 0
#define JOURNAL_CLONE 1
uint64_t journal_top(const uint64_t *words, size_t words_len, const uint8_t *replay, size_t replay_len,
    uint64_t *top, size_t top_len);

/* And past it: 2, 8, 14. */
uint64_t journal_pop(uint64_t *words, size_t words_len, const uint8_t *replay, size_t replay_len);

/* How many entries front and back together read as, and the bytes of their wire forms: 14; 9 where there are fewer
 * than two words. A replay buffer of so many bytes takes them. */
uint64_t journal_range(const uint8_t *front, size_t front_len, const uint8_t *back, size_t back_len,
    uint64_t *totals, size_t totals_len);

/* CRC-32C of bytes. */
uint32_t journal_crc32c(const uint8_t *s, size_t s_len);

/* The 32 bytes at the head of a block with this payload, to the start of `out`: 9. */
uint64_t journal_checksum(const uint8_t *s, size_t s_len, uint8_t *out, size_t out_len);

/* Places in a region of n blocks. An interval has a first block and a number of blocks, and wraps behind block n - 1; a
 * location has an address and a length in bytes. Each: 1, 16; 9 where there are too few words for the answer. */

/* The address of a block; that of block n is the region's end. */
uint64_t journal_place_of_block(uint64_t n, uint64_t block, uint64_t *answer, size_t answer_len);

/* The part of an interval up to the region's end, and the part from block 0 on: 1, start, length; or 0, 0, 0. */
uint64_t journal_place_front(uint64_t n, uint64_t start, uint64_t len, uint64_t *answer, size_t answer_len);
uint64_t journal_place_back(uint64_t n, uint64_t start, uint64_t len, uint64_t *answer, size_t answer_len);

/* The block behind an interval. */
uint64_t journal_place_next_start(uint64_t n, uint64_t start, uint64_t len, uint64_t *answer, size_t answer_len);

/* Whether interval a lies in b; whether they overlap; whether some block lies in both: 0 or 1. Where both have blocks
 * the last two are the same. An empty interval strictly inside another overlaps it, save at block 0, and shares no
 * block with any. */
uint64_t journal_place_contained(uint64_t n, uint64_t a_start, uint64_t a_len, uint64_t b_start, uint64_t b_len,
    uint64_t *answer, size_t answer_len);
uint64_t journal_place_overlap(uint64_t n, uint64_t a_start, uint64_t a_len, uint64_t b_start, uint64_t b_len,
    uint64_t *answer, size_t answer_len);
uint64_t journal_place_shares_block(uint64_t n, uint64_t a_start, uint64_t a_len, uint64_t b_start, uint64_t b_len,
    uint64_t *answer, size_t answer_len);

/* The location of an interval that does not wrap: address, length; and the interval of a location: start, length. */
uint64_t journal_place_location(uint64_t n, uint64_t start, uint64_t len, uint64_t *answer, size_t answer_len);
uint64_t journal_place_interval(uint64_t n, uint64_t addr, uint64_t len, uint64_t *answer, size_t answer_len);

/* The region on the unit's card: a slice of (2 + n) x JOURNAL_BLOCK bytes. Block 0 says which blocks of the region are
 * live, block 1 is neither read nor written, and the region's n blocks follow, each at its address as a place.
 * Block 0 is a block as those of an image. Its payload is the 32-bit number 10, the 16-bit kind 1, the 32-bit start and
 * length of the live interval, lowest byte first, and zeros. 18 is given for a slice of another length and for a block
 * 0 that is not exactly that with start < n and length <= n.
 * A call writes one block of the slice, or none, and the caller brings that block to the medium, whole or not at all. A
 * block that 12 names is counted from the live start, or is one of the image. */
#define JOURNAL_CARD_START 38         /* place in the card of the live interval's start, */
#define JOURNAL_CARD_LENGTH 42        /* and of its length */

/* Block 0 of a card without live blocks: 1; 18 for the slice's length alone. */
uint64_t journal_card_format(uint64_t n, uint8_t *card, size_t card_len);

/* The live blocks' payload, in order, to the start of `out`, and their number: 1, 18, 9, 12; 9 where there is no word.
 * `out` is at least JOURNAL_PAYLOAD bytes for each live block. What is found goes to journal_set_front, with an empty
 * back, or to both, split at a block; whether it reads, the load says. */
uint64_t journal_card_find(uint64_t n, const uint8_t *card, size_t card_len, uint8_t *out, size_t out_len,
    uint64_t *answer, size_t answer_len);

/* Make the next block store of an image, of which `made` are made: 1, 18; 11, 12, 14 for the image; 19 where a store is
 * left and the live blocks and the image's are more than n; 9 where there is no word. The answer is 1, or 0 where no
 * store is left: of an image of k blocks k + 1 are to make, of none none.
 * Told 0, 1, 2, .. until the answer is 0, the calls put the image's blocks behind the live ones, and then block 0.
 * After each the caller brings the one stored block to the medium and syncs, before the next call. Which it is: block 0
 * of the slice for made = k; else that behind the interval of start and length + made (journal_place_next_start, and
 * journal_place_of_block for its address), as they stand at JOURNAL_CARD_START and JOURNAL_CARD_LENGTH.
 * A cut between two stores leaves the live blocks as they were or, from the last store on, those and the image's,
 * where all calls are told the same image and nobody else writes the slice. After a cut begin at 0 again, with the
 * next image. Each number is told once: told k twice, with room for it, block 0 has k more live blocks that nobody
 * stored. */
uint64_t journal_card_store(uint64_t n, uint8_t *card, size_t card_len, const uint8_t *image, size_t image_len,
    uint64_t made, uint64_t *answer, size_t answer_len);

/* Drop the first batch from the live interval, and answer with its blocks: 1, 18, 8, 12, 14; 9 where there is no word.
 * The whole live range is read. Block 0 alone is written: bring it to the medium and sync before those blocks are used
 * again, and tell journal_update_written the length that is left. */
uint64_t journal_card_release(uint64_t n, uint8_t *card, size_t card_len, uint64_t *answer, size_t answer_len);

#ifdef __cplusplus
}
#endif
#endif
