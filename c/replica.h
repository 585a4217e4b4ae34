/* The centre's replica for C: entries of journals, replayed into a table from keys to values. Link with libreplica_c.a,
 * which `tools/archive replica_c` writes, and with libjournal_c.a where the journal's own calls are made too. What
 * journal.h says of its functions holds of these: what the caller owes, the codes, and that a refused call changes
 * nothing.
 *
 * The table is lent to each call. It is one insert's wire form for each present key, keys strictly ascending byte by
 * byte (a key before every longer key that it begins), then zeros to the end. The form: a 32-bit key length, the key, a
 * 32-bit value length, the value, numbers lowest byte first; a key has at most JOURNAL_FIRST_LIMIT bytes, a value at
 * most JOURNAL_VALUE_LIMIT. The number of rows goes with it: one word, lent as `rows`. Words behind the first are
 * neither read nor changed. Zeros with 0 rows are an empty table.
 * `work` is working space of the table's length. Its bytes do not matter, and are zeros after an accepted step.
 *
 * A step, or a lookup, first gives 2: where there is no word of rows, where the table is not of that form with that
 * number of rows, and, in a step, where `work` is of another length. */
#ifndef REPLICA_H
#define REPLICA_H

#include "journal.h"

#ifdef __cplusplus
extern "C" {
#endif

/* Set the value of one key: 2, 3, 4, 21. The key may have no bytes: units of before version 0.8.0 appended such. */
uint64_t replica_insert(uint64_t *rows, size_t rows_len, uint8_t *table, size_t table_len,
    uint8_t *work, size_t work_len, const uint8_t *key, size_t key_len, const uint8_t *value, size_t value_len);

/* Copy a line: 2, 3, 4, 20, 21. A key that begins with `to` then has the value that `from` followed by its remaining
 * bytes had before, or is absent; each other key keeps its value. Rows that go leave their room to others. */
uint64_t replica_clone(uint64_t *rows, size_t rows_len, uint8_t *table, size_t table_len,
    uint8_t *work, size_t work_len, const uint8_t *from, size_t from_len, const uint8_t *to, size_t to_len);

/* The value of a key, as its place in the table and its length: 2, 8; 9 where there are fewer words. An absent key of
 * any length is 8. */
#define REPLICA_ANSWER 2              /* words of the answer */
uint64_t replica_lookup(const uint64_t *rows, size_t rows_len, const uint8_t *table, size_t table_len,
    const uint8_t *key, size_t key_len, uint64_t *answer, size_t answer_len);

/* Make the step of the replay's next entry, and go past it: 2, 8, 14 as journal_pop, then the step's 2, 20, 21 (an
 * entry that reads is within its limits). The replay is as journal_load left it, the words as the last call on the
 * record did. Where the step is refused, the entry is still the next. */
uint64_t replica_replay(uint64_t *words, size_t words_len, const uint8_t *replay, size_t replay_len,
    uint64_t *rows, size_t rows_len, uint8_t *table, size_t table_len, uint8_t *work, size_t work_len);

#ifdef __cplusplus
}
#endif
#endif
