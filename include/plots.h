/* The plot index. Link with target/staticlib/libexports.a (`rust/library` builds it, x86-64 Linux).
 *
 * A slice is a pointer and then its number of words. Its pointer is never null, also where that number is 0, and it stands at a multiple
 * of the word's bytes. The slices of one call do not overlap. Nothing is kept after a call, and no memory is taken.
 *
 * Every function is defined on any words and any arguments. It returns the answer's number:
 *
 *    0  done                                7  low above high
 *    1  none                                8  key already held
 *    3  the head rule is broken             9  a damaged block was visited
 *    4  theta, C, N or P outside limits    10  the entry needs more blocks than remain
 *    5  the slice is shorter than the size 11  label or key outside its limits
 *    6  record or today outside its limits
 *
 * The values of the answer go to the front of the slice `reply`, in the order given at each function, as far as they fit; its other words
 * stay. Where the number is not 0 the values are zeros, and the store and the output stay as they were.
 */
#ifndef PLOTS_H
#define PLOTS_H

#include <stddef.h>
#include <stdint.h>

#ifdef __cplusplus
extern "C" {
#endif

/* Clears a store and heads it: theta 1 to 6, page capacity 1 to 24, node blocks and page blocks 1 to 4,096 each. Words beyond the size,
 * 16 + nodes * (4 + 2 * 2^theta) + pages * (1 + 4 * capacity), stay.
 * Reply: the size. Returns 0, 4 or 5. */
uint32_t plots_set_up(uint32_t *store, size_t store_words, uint32_t theta, uint32_t capacity, uint32_t nodes, uint32_t pages,
                      uint64_t *reply, size_t reply_words);

/* Enters a record: a key other than 0, the price in pence, the lease days (1 to 36,525, or 0 for a perpetual lease, whose last day is 0),
 * the last day (0 to 99,999).
 * Takes the last released block before an unused one. Reply: the key, the levels, the nodes in use, the pages in use.
 * Returns 0, 3, 6, 9, 8 or 10. */
uint32_t plots_enter(uint32_t *store, size_t store_words, uint32_t key, uint32_t price, uint32_t lease, uint32_t last, uint64_t *reply,
                     size_t reply_words);

/* Removes the record with a key; blocks that are then not needed are released, and entries take them again.
 * Reply: the key, the price, the lease days, the last day of the record removed. Returns 0, 1, 3 or 9. */
uint32_t plots_remove(uint32_t *store, size_t store_words, uint32_t key, uint64_t *reply, size_t reply_words);

/* The record with a key.
 * Reply: the key, the price, the lease days, the last day. Returns 0, 1, 3 or 9. */
uint32_t plots_find(const uint32_t *store, size_t store_words, uint32_t key, uint64_t *reply, size_t reply_words);

/* The record with the smallest key above the given one.
 * Reply: the key, the price, the lease days, the last day. Returns 0, 1, 3 or 9. */
uint32_t plots_next(const uint32_t *store, size_t store_words, uint32_t key, uint64_t *reply, size_t reply_words);

/* Writes the records with keys from low to high to the output, in the order of their keys, four words each (key, price, lease days, last
 * day): as many whole ones as fit. Its other words stay.
 * Reply: the count of records written, the first key of the range not written (0: none). Returns 0, 3, 7 or 9. */
uint32_t plots_range(const uint32_t *store, size_t store_words, uint32_t low, uint32_t high, uint32_t *out, size_t out_words,
                     uint64_t *reply, size_t reply_words);

/* Sums the records with keys from low to high up, on a day 0 to 99,999.
 * Reply: the count, the total of the balances in pence, the key of the earliest last day among leased records (0: none; of equal days the
 * highest price, of equal prices the lowest key). Returns 0, 3, 7, 6 or 9. */
uint32_t plots_summary(const uint32_t *store, size_t store_words, uint32_t low, uint32_t high, uint32_t today, uint64_t *reply,
                       size_t reply_words);

/* What is left of a price: price * days left / lease days, rounded down; 0 if perpetual. Days left are last day - today + 1 where today is
 * at or before the last day, 0 after it, and at most the lease days. Lease days, last day and today have a record's limits.
 * Reply: the balance in pence. Returns 0 or 6. */
uint32_t plots_balance(uint32_t price, uint32_t lease, uint32_t last, uint32_t today, uint64_t *reply, size_t reply_words);

/* The key of a label: section 1 to 255, row 0 to 4,095, place 0 to 255, letter 0 (none) or 1 to 15 (A to O).
 * Reply: the key. Returns 0 or 11. */
uint32_t plots_key_of(uint32_t section, uint32_t row, uint32_t place, uint32_t letter, uint64_t *reply, size_t reply_words);

/* The label of a key from 2^24 on.
 * Reply: the section, the row, the place, the letter. Returns 0 or 11. */
uint32_t plots_label_of(uint32_t key, uint64_t *reply, size_t reply_words);

/* The key, with letter 0, of a key of the old packing (section * 2^24 + row * 2^12 + place) from 2^24 on with a place of at most 255.
 * Reply: the key. Returns 0 or 11. */
uint32_t plots_convert(uint32_t key, uint64_t *reply, size_t reply_words);

#ifdef __cplusplus
}
#endif

#endif
