/* simmerknot.h: values of ground 4QL rules, for a host in C or C++. This header is the authority on how a host uses the library.
 *
 * A host that reads a sheet and prints its value sheet:
 *
 *     #include <simmerknot.h>
 *     #include <stdio.h>
 *
 *     static uint8_t words[SIMMERKNOT_WORD_BUFFER_BYTES];
 *     static uint8_t names[SIMMERKNOT_NAME_BUFFER_BYTES];
 *     static uint8_t text[SIMMERKNOT_VALUE_SHEET_BYTES];
 *
 *     int main(void) {
 *         static const char sheet[] = "arrived\tlogged\tmailed\nlogged\n-arrived\tgap\ngap\n";
 *         uint64_t answer = simmerknot_sheet((const uint8_t *)sheet, sizeof sheet - 1, words, sizeof words,
 *                                            names, sizeof names, text, sizeof text);
 *         if (simmerknot_refused(answer)) {
 *             printf("%s, at %lu\n", simmerknot_refusal_text(simmerknot_number(answer)),
 *                    (unsigned long)simmerknot_place(answer));
 *             return 1;
 *         }
 *         fwrite(text, 1, (size_t)answer, stdout);
 *         return 0;
 *     }
 *
 * It prints arrived i, logged t, mailed u and gap t, each name and letter parted by a tab: two sources contradict each other on
 * the first, and nobody spoke of the third. Build it with cc host.c $(pkg-config --cflags --libs simmerknot).
 *
 * What holds for every call:
 * - It takes any bytes and any lengths, ends, and answers by one number; simmerknot_refused tells which kind it is.
 * - A pointer and the length after it name one lent buffer. Where the length is 0 any pointer will do, NULL too.
 * - No buffer that is written may overlap another lent buffer.
 * - A buffer that is written is never read, so it may be uninitialised memory.
 * - Nothing outside the lent buffers is read or written, but less than 80 KiB of stack, or 112 KiB in simmerknot_reasons and 40 KiB in
 *   simmerknot_check_reasons (measured, tests/stack.c). No memory is kept, taken or given back, so calls from several threads do not
 *   meet unless they lend the same buffer.
 */
#ifndef SIMMERKNOT_H
#define SIMMERKNOT_H

#include <stddef.h>
#include <stdint.h>

#ifdef __cplusplus
extern "C" {
#endif

/* Version. The minor number grows only when a layout or an answer changes, so where it is the same a stored table means the same;
 * where it is not, VERSIONS in simmerknot(3) says whether. A call more raises the patch number. */

#define SIMMERKNOT_VERSION_MAJOR 0
#define SIMMERKNOT_VERSION_MINOR 4
#define SIMMERKNOT_VERSION_PATCH 0
#define SIMMERKNOT_VERSION_TEXT "0.4.0"

/* The version as one number, to compare with simmerknot_version(). */
#define SIMMERKNOT_VERSION (1000000 * SIMMERKNOT_VERSION_MAJOR + 1000 * SIMMERKNOT_VERSION_MINOR + SIMMERKNOT_VERSION_PATCH)

/* Limits. */

#define SIMMERKNOT_MOST_ATOMS 512
#define SIMMERKNOT_MOST_WORDS 8192
#define SIMMERKNOT_MOST_GROUPS 64   /* of a rule */
#define SIMMERKNOT_MOST_LITERALS 64 /* of a group */
#define SIMMERKNOT_MOST_LINE 32768  /* number of a line */
#define SIMMERKNOT_MOST_RANK 1023   /* in a reason sheet */
#define SIMMERKNOT_MOST_SHEET_BYTES 65536
#define SIMMERKNOT_MOST_NAME_BYTES 24

/* The least word buffer and name buffer that simmerknot_sheet takes: a word is two bytes, a name entry four. */
#define SIMMERKNOT_WORD_BUFFER_BYTES (2 * SIMMERKNOT_MOST_WORDS)
#define SIMMERKNOT_NAME_BUFFER_BYTES (4 * SIMMERKNOT_MOST_ATOMS)

/* A text room that every value sheet fits: per atom a name, tab, letter and byte 10. */
#define SIMMERKNOT_VALUE_SHEET_BYTES (SIMMERKNOT_MOST_ATOMS * (SIMMERKNOT_MOST_NAME_BYTES + 3))

/* A text room that every reason sheet fits: per literal three numbers of four digits and one of two, each with a byte after it. */
#define SIMMERKNOT_REASON_SHEET_BYTES (2 * SIMMERKNOT_MOST_ATOMS * (4 + 4 + 4 + 2 + 4))

/* Calls. */

/* Evaluates a table of rules over the atoms 0 to n - 1.
 *
 * Read: `table`, 16-bit words of two bytes each, low byte first; records back to back: head code; line number, 1 to 32,768, or 0
 *   in a table made by hand; number of groups, 0 to 64 (0 is a fact); per group its length, 1 to 64, and its literal codes. A literal
 *   code is 2 x atom, plus 1 for the negation. A head has one record at most. Line numbers stand in any order and may repeat; no
 *   answer and no value depends on one. A table does not say for which version it was made: whoever stores one stores that too.
 * Answered: 0 if evaluated, else a refusal: 1, 2, 3, then the first faulty word by 4, 5, 6 or 7. 6 is also for a line number
 *   above 32,768, and 4 for a lone last byte, met after the whole words.
 * Written: if evaluated, the first n bytes of `values`, the value of each atom as a simmerknot_value.
 * Untouched: `table`; the bytes of `values` past n; all of `values` on a refusal. */
uint64_t simmerknot_evaluate(uint64_t n, const uint8_t *table, size_t table_len, uint8_t *values, size_t values_len);

/* Says whether a table has a conflict: yes exactly if simmerknot_evaluate of the same table would write SIMMERKNOT_I for some atom.
 * It works out once what is held, before any mark, and no values.
 *
 * Read: `table`, laid out as for simmerknot_evaluate.
 * Answered: SIMMERKNOT_NO_CONFLICT or SIMMERKNOT_CONFLICT, else a refusal, which is neither: 1, 2, then the first faulty word by 4,
 *   5, 6 or 7, as evaluation gives them.
 * Written: nothing.
 * Untouched: `table`. */
uint64_t simmerknot_conflict(uint64_t n, const uint8_t *table, size_t table_len);

#define SIMMERKNOT_NO_CONFLICT 0
#define SIMMERKNOT_CONFLICT 1

/* Writes the reason sheet of a table: on which rule each literal rests that is in the model whose values simmerknot_evaluate writes.
 *
 * A reason sheet has one line for each literal of the model, in the order of literal codes: both literals of an atom that is i, the
 * atom itself where it is t, its negation where it is f. A line is four decimal numbers without leading zeros, parted by tabs and
 * ended by byte 10: the literal's code; its rank, 0 to 1,023; the head code of the rule it rests on; the number of that rule's group,
 * from 1, or 0 for a fact. The literals of that group have smaller ranks than that head, so that no reason goes round in a circle;
 * docs/SHEETS.md says when a line is justified. Which ranks, rules and groups are picked where several would do, and so the length,
 * may change with the version.
 *
 * Read: `table`, laid out as for simmerknot_evaluate.
 * Answered: the reason sheet's length, else a refusal: 1, 2, then the first faulty word by 4, 5, 6 or 7, as evaluation gives them,
 *   last 15. The sheet depends on n and the rules alone, so a host may ask with no room, and then lend as much as the place of 15
 *   says.
 * Written: if accepted, `text` begins with the reason sheet.
 * Untouched: `table`; the bytes of `text` past the reason sheet; all of `text` on a refusal. */
uint64_t simmerknot_reasons(uint64_t n, const uint8_t *table, size_t table_len, uint8_t *text, size_t text_len);

/* Checks a reason sheet, whoever wrote it: accepted exactly if the values are a model of the table, and each literal of it has its
 * line and is justified there by Definitions 8 and 9 of the 4QL paper, with smaller ranks as the order. So values are
 * well-supported exactly if some sheet is accepted with them; that they are the smallest such model, as evaluation's are, is not
 * said. What simmerknot_reasons writes is accepted with the values that simmerknot_evaluate writes.
 *
 * Read: `table`, laid out as for simmerknot_evaluate; the first n bytes of `values`, the value of each atom as a simmerknot_value;
 *   `text`.
 * Answered: 0 if accepted, else a refusal: 1, 2, 3, then the first faulty word by 4, 5, 6 or 7, as evaluation gives them, then 20,
 *   21, 34, last 22. The place of 20 is the atom. That of 21 is the first byte with which the text can no longer be the beginning of
 *   such lines, or its length; a place above 4,294,967,295 is answered as that. That of 34 is the head word of the first rule that
 *   is not satisfied. That of 22 is a line, from 1: the first that is not the next literal's, as one is missing, out of order or
 *   surplus; else the first that is not justified or has a rank above 1,023.
 * Written: nothing.
 * Untouched: `table`, `values` and `text`. */
uint64_t simmerknot_check_reasons(uint64_t n, const uint8_t *table, size_t table_len, const uint8_t *values, size_t values_len,
                                  const uint8_t *text, size_t text_len);

/* Reads a rule sheet (its layout: simmer(1), docs/SHEETS.md) and writes its value sheet.
 *
 * Read: `sheet`.
 * Answered: the value sheet's length, else a refusal: 8, 9, then the first literal with a fault by 10, 11, 12, 7, 13 or 14, last
 *   15.
 * Written: every whole entry of `words` and `names`. If accepted, `words` begins with the sheet's rules as a table, one record to a
 *   line, with the line of its head, from 1, and `names` with one entry for each atom, in atom order: 32 x the place of the
 *   name's first appearance + its length, four bytes, low byte first. All entries after these are zero; on a refusal all are, also
 *   where the buffer was too small.
 *   If accepted, `text` begins with the value sheet: for each atom, in atom order, its name, tab, one letter f, u, i or t, byte 10.
 *   So it has a line for each name of the sheet, also for one that heads no rule, and no name twice.
 * Untouched: `sheet`; bytes after the last whole word and after the last whole name entry; the bytes of `text` past the value
 *   sheet; all of `text` on a refusal. */
uint64_t simmerknot_sheet(const uint8_t *sheet, size_t sheet_len, uint8_t *words, size_t words_len, uint8_t *names, size_t names_len,
                          uint8_t *text, size_t text_len);

/* Answers the SIMMERKNOT_VERSION that the library was built as. Nothing is read or written. */
uint64_t simmerknot_version(void);

/* Answers, taken apart. */

/* 1 if the answer is a refusal, else 0. */
static inline int simmerknot_refused(uint64_t answer) { return (answer >> 32) != 0; }

/* The refusal's number, a simmerknot_refusal; 0 if the answer is none. */
static inline uint32_t simmerknot_number(uint64_t answer) { return (uint32_t)(answer >> 32); }

/* The refusal's place: a word of the table, a byte of the sheet or text, the bytes needed (15), an atom (20), a line (22), or 0. */
static inline uint32_t simmerknot_place(uint64_t answer) { return (uint32_t)(answer & 0xffffffffu); }

/* The numbers of refusal: number, name, text. The calls give 1 to 15, 20 to 22 and 34, and none gives the others; 23 to 33 are no
 * refusals.
 * 19 is retired: it has no name and no text, and is given to nothing else. */
#define SIMMERKNOT_REFUSALS(X) \
    X(1, TOO_MANY_ATOMS, "N is above 512") \
    X(2, TABLE_TOO_LONG, "the table has more than 8,192 words") \
    X(3, VALUE_ROOM_TOO_SMALL, "fewer than N bytes are lent for the values") \
    X(4, CUT_SHORT, "a record is cut short") \
    X(5, NOT_A_LITERAL, "a literal code is not below 2N") \
    X(6, OUT_OF_RANGE, "a rule has more than 64 groups, a group has no literal or more than 64, or a line number is above 32,768") \
    X(7, SECOND_RULE, "a second rule for one head") \
    X(8, SHEET_TOO_LONG, "the sheet has more than 65,536 bytes") \
    X(9, BUFFER_TOO_SMALL, "the word buffer has fewer than 8,192 words or the name buffer fewer than 512 entries") \
    X(10, WRONG_BYTE, "a byte that cannot stand there, or the sheet ended inside a line") \
    X(11, NAME_TOO_LONG, "a name has more than 24 bytes") \
    X(12, TOO_MANY_NAMES, "a 513th name") \
    X(13, TOO_MANY_IN_BODY, "a 65th group in a rule, or a 65th literal in a group") \
    X(14, TOO_MANY_WORDS, "the rules would fill more than 8,192 words") \
    X(15, TEXT_ROOM_TOO_SMALL, "the value sheet or reason sheet does not fit the text room") \
    X(16, NO_SUCH_ATOM, "the picked atom is not below N") \
    X(17, BROKEN_RECORD, "the record has a mark at N or above, or its count is not the number of its marks") \
    X(18, NOT_SETTLED, "a report before the marking is settled") \
    X(20, NOT_A_TRUTH_CODE, "the code of a truth value is above 3") \
    X(21, TEXT_BROKEN, "a byte that cannot stand there in a reason sheet, or the text ended inside a line") \
    X(22, LINE_NOT_JUSTIFIED, "a line of the reason sheet is missing, out of order, surplus, not justified or ranked above 1,023") \
    X(34, NOT_A_MODEL, "the values are no model: a rule is not satisfied")

/* SIMMERKNOT_TOO_MANY_ATOMS = 1 and so on. */
typedef enum simmerknot_refusal {
#define SIMMERKNOT_X(number, name, text) SIMMERKNOT_##name = number,
    SIMMERKNOT_REFUSALS(SIMMERKNOT_X)
#undef SIMMERKNOT_X
    SIMMERKNOT_LAST_REFUSAL = SIMMERKNOT_NOT_A_MODEL
} simmerknot_refusal;

/* The name of a number, as "SECOND_RULE"; "" for a number that is not in the list. */
static inline const char *simmerknot_refusal_name(uint32_t number) {
    switch (number) {
#define SIMMERKNOT_X(number, name, text) case number: return #name;
        SIMMERKNOT_REFUSALS(SIMMERKNOT_X)
#undef SIMMERKNOT_X
    default: return "";
    }
}

/* What a number says, in one line of English; "" for a number that is not in the list. */
static inline const char *simmerknot_refusal_text(uint32_t number) {
    switch (number) {
#define SIMMERKNOT_X(number, name, text) case number: return text;
        SIMMERKNOT_REFUSALS(SIMMERKNOT_X)
#undef SIMMERKNOT_X
    default: return "";
    }
}

/* Values, in truth order, as simmerknot_evaluate writes them and simmerknot_check_reasons reads them. */
typedef enum simmerknot_value {
    SIMMERKNOT_F = 0, /* false */
    SIMMERKNOT_U = 1, /* unknown: nobody spoke */
    SIMMERKNOT_I = 2, /* inconsistent: sources contradict each other */
    SIMMERKNOT_T = 3, /* true */
    SIMMERKNOT_NO_VALUE = 4
} simmerknot_value;

/* The value that a byte of `values` stands for; SIMMERKNOT_NO_VALUE for a byte above 3. */
static inline simmerknot_value simmerknot_value_of_code(uint8_t code) {
    switch (code) {
    case 0: return SIMMERKNOT_F;
    case 1: return SIMMERKNOT_U;
    case 2: return SIMMERKNOT_I;
    case 3: return SIMMERKNOT_T;
    default: return SIMMERKNOT_NO_VALUE;
    }
}

/* The value that a letter of a value sheet stands for; SIMMERKNOT_NO_VALUE for any other byte. */
static inline simmerknot_value simmerknot_value_of_letter(uint8_t letter) {
    switch (letter) {
    case 0x66: return SIMMERKNOT_F; /* f */
    case 0x75: return SIMMERKNOT_U; /* u */
    case 0x69: return SIMMERKNOT_I; /* i */
    case 0x74: return SIMMERKNOT_T; /* t */
    default: return SIMMERKNOT_NO_VALUE;
    }
}

/* Name entry `atom` of a name buffer, which must hold it; 0 if no atom has that number. */
static inline uint32_t simmerknot_name_entry(const uint8_t *names, size_t atom) {
    const uint8_t *entry = names + 4 * atom;
    return (uint32_t)entry[0] | (uint32_t)entry[1] << 8 | (uint32_t)entry[2] << 16 | (uint32_t)entry[3] << 24;
}

/* Where in the sheet the name of an entry begins, and how many bytes it has. */
static inline size_t simmerknot_name_place(uint32_t entry) { return entry / 32; }
static inline size_t simmerknot_name_len(uint32_t entry) { return entry % 32; }

/* The words of a table, looked at: any bytes and any length will do, and nothing outside is read. A lone last byte is no word. */

/* Where a record has its line number and its number of groups, and where its first group begins, counted from its head. */
#define SIMMERKNOT_LINE_AT 1
#define SIMMERKNOT_GROUPS_AT 2
#define SIMMERKNOT_BODY_AT 3

/* Word `at`, which the words must hold. */
static inline uint32_t simmerknot_word(const uint8_t *words, size_t at) {
    return (uint32_t)words[2 * at] | (uint32_t)words[2 * at + 1] << 8;
}

/* The word after the record that begins at word `at`; 0 if the words end before the record does. */
static inline size_t simmerknot_record_end(const uint8_t *words, size_t words_len, size_t at) {
    const size_t count = words_len / 2;
    size_t groups;
    if (at >= count || count - at < SIMMERKNOT_BODY_AT) return 0;
    groups = simmerknot_word(words, at + SIMMERKNOT_GROUPS_AT);
    for (at += SIMMERKNOT_BODY_AT; groups > 0; groups--) {
        if (at >= count || count - at <= simmerknot_word(words, at)) return 0;
        at += 1 + simmerknot_word(words, at);
    }
    return at;
}

/* The number of words that a sheet filled in its word buffer; twice that is the length of its rules as a table, in bytes. 0 after a
 * refusal. For any words: those of the whole records before the first that has line 0 or is cut short. */
static inline size_t simmerknot_words_used(const uint8_t *words, size_t words_len) {
    size_t at = 0, end = simmerknot_record_end(words, words_len, 0);
    while (end != 0 && simmerknot_word(words, at + SIMMERKNOT_LINE_AT) != 0) {
        at = end;
        end = simmerknot_record_end(words, words_len, at);
    }
    return at;
}

/* The line of the rule with that head, a literal code; 0 if no record has the head, or its record has no line. The first record with
 * it counts, and none from one that is cut short on. The words may be a sheet's whole buffer, zeros and all. */
static inline uint32_t simmerknot_line_of(const uint8_t *words, size_t words_len, uint32_t head) {
    size_t at = 0, end = simmerknot_record_end(words, words_len, 0);
    while (end != 0) {
        if (simmerknot_word(words, at) == head) return simmerknot_word(words, at + SIMMERKNOT_LINE_AT);
        at = end;
        end = simmerknot_record_end(words, words_len, at);
    }
    return 0;
}

#ifdef __cplusplus
}
#endif

#endif
