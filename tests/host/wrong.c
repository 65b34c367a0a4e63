/* Faults at the boundary that boundary.c must notice, by -DFAULT=NUMBER, laid around the real calls by the linker (--wrap). 11 to 13
 * and 37 show only where what is lent is undefined, under valgrind. */
#include <simmerknot.h>
#include <stdio.h>
#include <string.h>

uint64_t __real_simmerknot_evaluate(uint64_t n, const uint8_t *table, size_t table_len, uint8_t *values, size_t values_len);
uint64_t __real_simmerknot_sheet(const uint8_t *sheet, size_t sheet_len, uint8_t *words, size_t words_len, uint8_t *names,
                                 size_t names_len, uint8_t *text, size_t text_len);
uint64_t __real_simmerknot_conflict(uint64_t n, const uint8_t *table, size_t table_len);
uint64_t __real_simmerknot_reasons(uint64_t n, const uint8_t *table, size_t table_len, uint8_t *text, size_t text_len);
uint64_t __real_simmerknot_check_reasons(uint64_t n, const uint8_t *table, size_t table_len, const uint8_t *values, size_t values_len,
                                         const uint8_t *text, size_t text_len);
uint64_t __wrap_simmerknot_evaluate(uint64_t n, const uint8_t *table, size_t table_len, uint8_t *values, size_t values_len);
uint64_t __wrap_simmerknot_reasons(uint64_t n, const uint8_t *table, size_t table_len, uint8_t *text, size_t text_len);
uint64_t __wrap_simmerknot_check_reasons(uint64_t n, const uint8_t *table, size_t table_len, const uint8_t *values, size_t values_len,
                                         const uint8_t *text, size_t text_len);
uint64_t __wrap_simmerknot_conflict(uint64_t n, const uint8_t *table, size_t table_len);
uint64_t __wrap_simmerknot_sheet(const uint8_t *sheet, size_t sheet_len, uint8_t *words, size_t words_len, uint8_t *names,
                                 size_t names_len, uint8_t *text, size_t text_len);

static volatile uint8_t sink;

static void put_line(uint8_t *words, size_t record, uint32_t line) {
    words[2 * (record + SIMMERKNOT_LINE_AT)] = (uint8_t)(line % 256);
    words[2 * (record + SIMMERKNOT_LINE_AT) + 1] = (uint8_t)(line / 256);
}

/* Every line above the least becomes the one before it. */
static void lower_lines(uint8_t *words, size_t words_len, uint32_t least) {
    const size_t used = simmerknot_words_used(words, words_len);
    size_t at;
    for (at = 0; at < used; at = simmerknot_record_end(words, words_len, at)) {
        const uint32_t line = simmerknot_word(words, at + SIMMERKNOT_LINE_AT);
        if (line > least) put_line(words, at, line - 1);
    }
}

/* The table, with every line above 32,768 of a whole record taken for that. */
static const uint8_t *cut_lines(const uint8_t *table, size_t table_len) {
    static uint8_t cut[2 * SIMMERKNOT_MOST_WORDS + 2];
    size_t at = 0, end = simmerknot_record_end(table, table_len, 0);
    if (table_len > sizeof cut) return table;
    if (table_len) memcpy(cut, table, table_len);
    for (; end != 0; at = end, end = simmerknot_record_end(table, table_len, at)) {
        if (simmerknot_word(table, at + SIMMERKNOT_LINE_AT) > SIMMERKNOT_MOST_LINE) put_line(cut, at, SIMMERKNOT_MOST_LINE);
    }
    return cut;
}

/* Whether the table is evaluated and all its atoms, one at least, are marked: i. */
static int all_marked(uint64_t n, const uint8_t *table, size_t table_len) {
    static uint8_t values[SIMMERKNOT_MOST_ATOMS];
    uint64_t a;
    if (n == 0 || __real_simmerknot_evaluate(n, table, table_len, values, sizeof values) != 0) return 0;
    for (a = 0; a < n; a++) {
        if (values[a] != SIMMERKNOT_I) return 0;
    }
    return 1;
}

uint64_t __wrap_simmerknot_evaluate(uint64_t n, const uint8_t *table, size_t table_len, uint8_t *values, size_t values_len) {
    uint64_t answer;
    /* 76: where all N atoms are marked, 19, which is retired */
    if (FAULT == 76 && values_len >= n && all_marked(n, table, table_len)) return (uint64_t)19 << 32;
    /* 18: a line above 32,768 is taken */
    if (FAULT == 18) table = cut_lines(table, table_len);
    /* 1, 2: one byte too many is read, behind the table or in front of it */
    if (FAULT == 1 && table_len) sink = table[table_len];
    if (FAULT == 2 && table_len) sink = *(table - 1);
    /* 11: a value is looked at before it is written */
    if (FAULT == 11 && values_len && values[0] > 3) sink = 1;
    answer = __real_simmerknot_evaluate(n, table, table_len, values, values_len);
    /* 3: a byte past the values; 4: a value written on a refusal; 5: the table used as room */
    if (FAULT == 3 && !simmerknot_refused(answer) && values_len > n) values[n] = 1;
    if (FAULT == 4 && simmerknot_refused(answer) && values_len) values[0] = 1;
    if (FAULT == 5 && table_len) ((uint8_t *)(uintptr_t)table)[0] = 0;
    /* 17: a value rests on a line */
    if (FAULT == 17 && !simmerknot_refused(answer) && n && table_len) values[0] ^= simmerknot_word(table, SIMMERKNOT_LINE_AT) / 32768;
    return answer;
}

/* Whether both literals of an atom have a rule, or a fact where only those count. */
static uint64_t both_literals(const uint8_t *table, size_t table_len, int only_facts) {
    static uint8_t met[2 * SIMMERKNOT_MOST_ATOMS];
    size_t at = 0, end = simmerknot_record_end(table, table_len, 0);
    memset(met, 0, sizeof met);
    for (; end != 0; at = end, end = simmerknot_record_end(table, table_len, at)) {
        const uint32_t head = simmerknot_word(table, at);
        if (only_facts && end > at + SIMMERKNOT_BODY_AT) continue;
        met[head] = 1;
        if (met[head ^ 1]) return SIMMERKNOT_CONFLICT;
    }
    return SIMMERKNOT_NO_CONFLICT;
}

uint64_t __wrap_simmerknot_conflict(uint64_t n, const uint8_t *table, size_t table_len) {
    uint64_t answer;
    /* 19, 20: one byte too many is read, behind the table or in front of it */
    if (FAULT == 19 && table_len) sink = table[table_len];
    if (FAULT == 20 && table_len) sink = *(table - 1);
    /* 21: a lone byte is passed over; 22: it is met first; 23: a line above 32,768 is taken; 24: so is a table that is too long; 25: so is
     * N above 512 */
    if (FAULT == 21) table_len -= table_len % 2;
    if (FAULT == 22 && table_len % 2) return ((uint64_t)SIMMERKNOT_CUT_SHORT << 32) + table_len / 2;
    if (FAULT == 23) table = cut_lines(table, table_len);
    if (FAULT == 24 && table_len > 2 * SIMMERKNOT_MOST_WORDS + 1) table_len = 2 * SIMMERKNOT_MOST_WORDS;
    if (FAULT == 25 && n > SIMMERKNOT_MOST_ATOMS) n = SIMMERKNOT_MOST_ATOMS;
    answer = __real_simmerknot_conflict(n, table, table_len);
    /* 26: the table used as room */
    if (FAULT == 26 && table_len) ((uint8_t *)(uintptr_t)table)[table_len - 1] = 0;
    /* 27: a refusal is answered as no conflict; 28: a refusal without its place */
    if (FAULT == 27 && simmerknot_refused(answer)) answer = SIMMERKNOT_NO_CONFLICT;
    if (FAULT == 28) answer -= simmerknot_refused(answer) ? simmerknot_place(answer) : 0;
    if (simmerknot_refused(answer)) return answer;
    /* 29: never a conflict; 30: always one; 31: another number for yes; 32: yes and no rest on a line */
    if (FAULT == 29) answer = SIMMERKNOT_NO_CONFLICT;
    if (FAULT == 30) answer = SIMMERKNOT_CONFLICT;
    if (FAULT == 31 && answer == SIMMERKNOT_CONFLICT) answer = SIMMERKNOT_I;
    if (FAULT == 32 && table_len) answer ^= simmerknot_word(table, SIMMERKNOT_LINE_AT) / 32768;
    /* 33: two rules are enough; 34: only two facts are */
    if (FAULT == 33) answer = both_literals(table, table_len, 0);
    if (FAULT == 34) answer = both_literals(table, table_len, 1);
    return answer;
}

/* The value sheet without the lines that end in "u", in a room of which no other byte is touched; its length. */
static uint64_t without_u(const uint8_t *lines, size_t len, uint8_t *text) {
    size_t at = 0, end, kept = 0;
    for (; at < len; at = end) {
        for (end = at + 1; lines[end - 1] != '\n';) end++;
        if (lines[end - 2] == 'u') continue;
        memcpy(text + kept, lines + at, end - at);
        kept += end - at;
    }
    return kept;
}

/* Whether there are lines and all end in "i". */
static int all_i(const uint8_t *lines, size_t len) {
    size_t at;
    for (at = 2; at < len; at++) {
        if (lines[at] == '\n' && lines[at - 1] != 'i') return 0;
    }
    return len > 0;
}

uint64_t __wrap_simmerknot_sheet(const uint8_t *sheet, size_t sheet_len, uint8_t *words, size_t words_len, uint8_t *names,
                                 size_t names_len, uint8_t *text, size_t text_len) {
    static uint8_t lines[SIMMERKNOT_VALUE_SHEET_BYTES];
    uint64_t answer;
    /* 14: a line is left out where the value is u */
    if (FAULT == 14 && text_len <= sizeof lines) {
        answer = __real_simmerknot_sheet(sheet, sheet_len, words, words_len, names, names_len, lines, text_len);
        return simmerknot_refused(answer) ? answer : without_u(lines, (size_t)answer, text);
    }
    /* 77: where all names are marked, 19 before 15, with every entry zero and no text */
    if (FAULT == 77) {
        answer = __real_simmerknot_sheet(sheet, sheet_len, words, words_len, names, names_len, lines, sizeof lines);
        if (!simmerknot_refused(answer) && all_i(lines, (size_t)answer)) {
            memset(words, 0, words_len / 2 * 2);
            memset(names, 0, names_len / 4 * 4);
            return (uint64_t)19 << 32;
        }
    }
    /* 6: one byte too many is read behind the sheet */
    if (FAULT == 6 && sheet_len) sink = sheet[sheet_len];
    /* 12, 13: a word or the text is looked at before it is written */
    if (FAULT == 12 && words_len && words[words_len - 1]) sink = 1;
    if (FAULT == 13 && text_len && text[0]) sink = 1;
    answer = __real_simmerknot_sheet(sheet, sheet_len, words, words_len, names, names_len, text, text_len);
    /* 7: a surplus byte is cleared; 8: a refusal leaves an entry; 9: a byte past the value sheet; 10: entries past 8,192 stay */
    if (FAULT == 7 && words_len % 2) words[words_len - 1] = 0;
    if (FAULT == 8 && simmerknot_refused(answer) && names_len >= 4) names[0] = 1;
    if (FAULT == 9 && !simmerknot_refused(answer) && text_len > answer) text[answer] = 0;
    if (FAULT == 10 && words_len > 16387) memset(words + 16384, 7, 2);
    /* 15: lines are counted from 0; 16: a record has the line of the one before */
    if (FAULT == 15 && !simmerknot_refused(answer)) lower_lines(words, words_len, 0);
    if (FAULT == 16 && !simmerknot_refused(answer)) lower_lines(words, words_len, 1);
    return answer;
}

/* Lines of a reason sheet. */
struct reason {
    unsigned literal, rank, head, group;
};
enum { MOST_LINES = 2 * SIMMERKNOT_MOST_ATOMS, ANY_SHEET = 2 * SIMMERKNOT_REASON_SHEET_BYTES };
static struct reason lines[MOST_LINES];
static uint8_t sheet_again[ANY_SHEET];

/* The lines of a text that is whole lines, as many as there may be. */
static size_t take_apart(const uint8_t *text, size_t len) {
    size_t at, count = 0;
    unsigned numbers[4] = {0, 0, 0, 0}, i = 0;
    for (at = 0; at < len && count < MOST_LINES; at++) {
        if (text[at] != '\t' && text[at] != '\n') {
            numbers[i] = 10 * numbers[i] + (unsigned)(text[at] - '0');
        } else if (++i == 4) {
            const struct reason line = {numbers[0], numbers[1], numbers[2], numbers[3]};
            lines[count++] = line;
            memset(numbers, 0, sizeof numbers);
            i = 0;
        }
    }
    return count;
}

static size_t put_together(size_t count) {
    size_t i, len = 0;
    for (i = 0; i < count; i++) {
        const struct reason *l = &lines[i];
        len += (size_t)sprintf((char *)sheet_again + len, "%u\t%u\t%u\t%u\n", l->literal, l->rank, l->head, l->group);
    }
    return len;
}

/* The sheet of these lines, altered; its length. */
static size_t altered(size_t count) {
    const struct reason first = lines[0];
    size_t i;
    if (FAULT == 44 && count) count--;
    if (FAULT == 45 && count > 1) {
        lines[0] = lines[1];
        lines[1] = first;
    }
    for (i = 0; i < count; i++) {
        if ((FAULT == 46 || FAULT == 47) && lines[i].rank < SIMMERKNOT_MOST_RANK) lines[i].rank++;
        if (FAULT == 48) lines[i].rank = 0;
        if (FAULT == 49) lines[i].group = 0;
        if (FAULT == 50) lines[i].head = lines[i].literal;
        if (FAULT == 51 && lines[i].group) lines[i].group = 1;
    }
    return put_together(count);
}

uint64_t __wrap_simmerknot_reasons(uint64_t n, const uint8_t *table, size_t table_len, uint8_t *text, size_t text_len) {
    static uint8_t room[SIMMERKNOT_REASON_SHEET_BYTES];
    uint64_t answer;
    size_t len;
    /* 35, 36: one byte too many is read, behind the table or in front of it */
    if (FAULT == 35 && table_len) sink = table[table_len];
    if (FAULT == 36 && table_len) sink = *(table - 1);
    /* 37: the text is looked at before it is written */
    if (FAULT == 37 && text_len && text[0]) sink = 1;
    /* 38: a lone byte is passed over; 39: so is N above 512 */
    if (FAULT == 38) table_len -= table_len % 2;
    if (FAULT == 39 && n > SIMMERKNOT_MOST_ATOMS) n = SIMMERKNOT_MOST_ATOMS;
    answer = __real_simmerknot_reasons(n, table, table_len, text, text_len);
    /* 40: a byte past the sheet; 41: a refusal writes what fits; 42: the table used as room; 43: 15 tells what is short */
    if (FAULT == 40 && !simmerknot_refused(answer) && text_len > answer) text[answer] = 0;
    if (FAULT == 41 && simmerknot_refused(answer) && text_len) text[text_len - 1] = '\n';
    if (FAULT == 42 && table_len) ((uint8_t *)(uintptr_t)table)[0] = 0;
    if (FAULT == 43 && simmerknot_number(answer) == SIMMERKNOT_TEXT_ROOM_TOO_SMALL) answer -= text_len;
    /* 44: the last line is left out; 45: the first two are swapped; 46: ranks from 1 in a larger room; 47: the same by a record's line;
     * 48: every rank is 0; 49: every group is 0; 50: every literal by a rule of its own; 51: the first group always */
    if (FAULT < 44 || FAULT > 51) return answer;
    if (simmerknot_refused(answer) && simmerknot_number(answer) != SIMMERKNOT_TEXT_ROOM_TOO_SMALL) return answer;
    len = (size_t)__real_simmerknot_reasons(n, table, table_len, room, sizeof room);
    if (FAULT == 46 && text_len <= len) return answer;
    if (FAULT == 47 && (table_len == 0 || simmerknot_word(table, SIMMERKNOT_LINE_AT) < SIMMERKNOT_MOST_LINE)) return answer;
    len = altered(take_apart(room, len));
    if (len > text_len) return ((uint64_t)SIMMERKNOT_TEXT_ROOM_TOO_SMALL << 32) + len;
    if (len) memcpy(text, sheet_again, len);
    return len;
}

/* The answer on the sheet with one line put in another way, where the sheet is refused for that line; else the answer that was given. */
static uint64_t put_right(uint64_t n, const uint8_t *table, size_t table_len, const uint8_t *values, size_t values_len,
                          const uint8_t *text, size_t text_len, uint64_t answer) {
    const size_t count = text_len <= ANY_SHEET / 2 ? take_apart(text, text_len) : 0, at = simmerknot_place(answer) - 1;
    unsigned way;
    struct reason given;
    if (simmerknot_number(answer) != SIMMERKNOT_LINE_NOT_JUSTIFIED || at >= count) return answer;
    given = lines[at];
    for (way = 0; way < 65; way++) {
        lines[at] = given;
        if (FAULT == 69) lines[at].group = way;
        if (FAULT == 70) lines[at].head = given.literal ^ (way & 1);
        if (FAULT == 71) lines[at].rank = SIMMERKNOT_MOST_RANK;
        if (__real_simmerknot_check_reasons(n, table, table_len, values, values_len, sheet_again, put_together(count)) == 0) return 0;
    }
    return answer;
}

/* The length of the text without its last line, or without what follows the last byte 10. */
static size_t lines_before(const uint8_t *text, size_t len) {
    while (len && text[len - 1] != '\n') len--;
    return len;
}

uint64_t __wrap_simmerknot_check_reasons(uint64_t n, const uint8_t *table, size_t table_len, const uint8_t *values, size_t values_len,
                                         const uint8_t *text, size_t text_len) {
    static uint8_t codes[SIMMERKNOT_MOST_ATOMS];
    uint64_t answer;
    size_t i;
    /* 52 to 56: one byte too many is read, behind the table, the values or the text, or in front of the values or the text */
    if (FAULT == 52 && table_len) sink = table[table_len];
    if (FAULT == 53 && values_len) sink = values[values_len];
    if (FAULT == 54 && text_len) sink = text[text_len];
    if (FAULT == 55 && values_len) sink = *(values - 1);
    if (FAULT == 56 && text_len) sink = *(text - 1);
    /* 57: a value past N is looked at; 58: a lone byte is passed over; 59: no value code is met before a lone byte; 60: no model before a
     * broken text */
    if (FAULT == 57 && n <= SIMMERKNOT_MOST_ATOMS && values_len > n && values[n] > 3) {
        return ((uint64_t)SIMMERKNOT_NOT_A_TRUTH_CODE << 32) + n;
    }
    if (FAULT == 58) table_len -= table_len % 2;
    if (FAULT == 59 || FAULT == 60) {
        answer = __real_simmerknot_check_reasons(n, table, table_len - table_len % 2, values, values_len, NULL, 0);
        if (FAULT == 59 && simmerknot_number(answer) == SIMMERKNOT_NOT_A_TRUTH_CODE) return answer;
        if (FAULT == 60 && simmerknot_number(answer) == SIMMERKNOT_NOT_A_MODEL) return answer;
    }
    /* 61: a code above 3 is taken for 3 */
    if (FAULT == 61 && values_len <= sizeof codes) {
        for (i = 0; i < values_len; i++) codes[i] = values[i] > 3 ? 3 : values[i];
        values = codes;
    }
    /* 62: what follows the last byte 10 is passed over */
    if (FAULT == 62) text_len = lines_before(text, text_len);
    answer = __real_simmerknot_check_reasons(n, table, table_len, values, values_len, text, text_len);
    /* 63: the values used as room; 64: so is the text */
    if (FAULT == 63 && values_len) ((uint8_t *)(uintptr_t)values)[0] = 0;
    if (FAULT == 64 && text_len) ((uint8_t *)(uintptr_t)text)[text_len - 1] = 0;
    /* 65: always accepted; 66: never; 67: a refusal without its place; 68: lines from 0 */
    if (FAULT == 65) return 0;
    if (FAULT == 66 && answer == 0) return ((uint64_t)SIMMERKNOT_LINE_NOT_JUSTIFIED << 32) + 1;
    if (FAULT == 67) answer -= simmerknot_place(answer);
    if (FAULT == 68 && simmerknot_number(answer) == SIMMERKNOT_LINE_NOT_JUSTIFIED) answer--;
    /* 69: a line is justified by any group; 70: by any rule of its atom; 71: by any rank */
    if (FAULT >= 69 && FAULT <= 71) return put_right(n, table, table_len, values, values_len, text, text_len, answer);
    /* 72: surplus lines are taken; 73: so are missing ones; 74: values that are no model; 75: fewer than N values */
    if (FAULT == 72 && simmerknot_number(answer) == SIMMERKNOT_LINE_NOT_JUSTIFIED && text_len) {
        const size_t len = lines_before(text, text_len - 1);
        if (__real_simmerknot_check_reasons(n, table, table_len, values, values_len, text, len) == 0) return 0;
    }
    if (FAULT == 73 && simmerknot_number(answer) == SIMMERKNOT_LINE_NOT_JUSTIFIED && text_len <= ANY_SHEET / 2) {
        if (simmerknot_place(answer) > take_apart(text, text_len)) return 0;
    }
    if (FAULT == 74 && simmerknot_number(answer) == SIMMERKNOT_NOT_A_MODEL) return 0;
    if (FAULT == 75 && simmerknot_number(answer) == SIMMERKNOT_VALUE_ROOM_TOO_SMALL) return 0;
    return answer;
}
