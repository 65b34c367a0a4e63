/* The entries of the engine as the tests reach them: `rt lib` in crates/probe writes crates/probe/out/libprobe.a.
 *
 *     uint64_t answer = probe_check(2, words, 4);
 *     if (answer < PROBE_REFUSED) .. accepted ..
 *     else .. answer / PROBE_REFUSED is document 01's number, answer % PROBE_REFUSED the place ..
 *
 * Every answer is one number. From 2^32 on it is a refusal, 2^32 x number + place; below 2^32 it is what the entry has to
 * say, as written beside it. The sum is taken modulo 2^64: it loses nothing, as numbers are at most 20 and places of these
 * entries below 2^32. No wrapper turns a refusal into anything else; crates/probe/specs/Packed.antt has the same codes
 * and crates/probe/src/lib.rt the proved promises.
 *
 * Every number of 64 bits may be handed as a truth code, N or atom. A table is 16-bit words and how many; with 0 of them any
 * pointer is taken, NULL too. A record is N, eight words of 64 marks and the count of the marks as stored, any 64-bit number:
 * atom a is bit a mod 64, lowest first, of word a div 64. `marks` points to exactly eight words, `n` and `count` to one number
 * each. A record is refused by 17 if it has a mark at N or above, or if its count is not the number of its marks. Nothing past
 * the ends given here is read or written.
 */
#ifndef PROBE_H
#define PROBE_H

#include <stddef.h>
#include <stdint.h>

#ifdef __cplusplus
extern "C" {
#endif

#define PROBE_REFUSED (UINT64_C(1) << 32)

/* The truth code f 0, u 1, i 2, t 3; refuses 20. */
uint64_t probe_and(uint64_t v, uint64_t w);
uint64_t probe_or(uint64_t v, uint64_t w);
uint64_t probe_not(uint64_t v);
uint64_t probe_implication(uint64_t body, uint64_t head);

/* 0: accepted; refuses 1, 2, then words (4, 5, 6, 7). */
uint64_t probe_check(uint64_t n, const uint16_t *table, size_t words);

/* 0: `*n`, `marks` and `*count` are a fresh record for `asked`; refuses 1, and they are then N 0, no marks and count 0. */
uint64_t probe_fresh(uint64_t asked, uint64_t *n, uint64_t marks[8], uint64_t *count);

/* 0: marked, 1: already marked, 2: cannot be marked now; refuses 1, 17, 2, words, 16. `*n`, `marks` and `*count` are the record
 * afterwards: one mark and one in the count more after 0, as it was after all else. */
uint64_t probe_pick(uint64_t *n, uint64_t marks[8], uint64_t *count, const uint16_t *table, size_t words, uint64_t atom);

/* 0: no, 1: yes; refuses 1, 17, 2, words. */
uint64_t probe_settled(uint64_t n, const uint64_t marks[8], uint64_t count, const uint16_t *table, size_t words);

/* 0: the first N bytes of `values` are the values; refuses 1, 17, 2, 3, words, 18. */
uint64_t probe_report(uint64_t n, const uint64_t marks[8], uint64_t count, const uint16_t *table, size_t words,
                      uint8_t *values, size_t values_len);

/* The stored number of marks, at most 512; refuses 1, 17. */
uint64_t probe_mark_count(uint64_t n, const uint64_t marks[8], uint64_t count);

/* 0: the first N bytes of `values` are the values; refuses 1, 2, 3, words. */
uint64_t probe_evaluate(uint64_t n, const uint16_t *table, size_t words, uint8_t *values, size_t values_len);

/* 0: no, 1: yes; refuses 1, 2, words. */
uint64_t probe_conflict(uint64_t n, const uint16_t *table, size_t words);

/* Which group of the table's first record is wholly in the set: 0 it is a fact, 1 to 64 the number of the lowest such group,
 * 65 none, 66 the table has no record; refuses 1, 2, words. The set is 64-bit words and how many: literal l is bit l mod 64,
 * lowest first, of word l div 64, and a literal past them is not in it; with 0 of them any pointer is taken, NULL too. Reads
 * only; writes nothing. */
uint64_t probe_which_group(uint64_t n, const uint16_t *table, size_t words, const uint64_t *set, size_t set_words);

/* The reading at `*place`: 0 the end, 2 a head, 4 first of a group, 6 further in a group, 1 more if it is negated; refuses
 * 8, 10, 11. `*place` is the next place afterwards, `*start` and `*len` the name's place and length, 0 where there is none. */
uint64_t probe_reading(const uint8_t *sheet, size_t sheet_len, size_t *place, size_t *start, size_t *len);

/* The same from a reader that was made at the start and moved on to `*place`; what it saw there before it read, in the same way,
 * is left in `*seen`, `*seen_start` and `*seen_len`. */
uint64_t probe_reader(const uint8_t *sheet, size_t sheet_len, size_t *place, size_t *start, size_t *len,
                      uint64_t *seen, size_t *seen_start, size_t *seen_len);

/* The value sheet's length; refuses 8, 9, literals (10 to 14 and 7), 15. `*atoms` and `*filled` are N and the words
 * filled, 0 after a refusal. Buffer lengths are in entries. */
uint64_t probe_sheet(const uint8_t *sheet, size_t sheet_len, uint16_t *words, size_t words_len,
                     uint32_t *names, size_t names_len, uint8_t *text, size_t text_len,
                     size_t *atoms, size_t *filled);

#ifdef __cplusplus
}
#endif

#endif
