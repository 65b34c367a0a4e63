/* The header's own promises, as C99 and as C++11: limits, the list of refusals, answers taken apart, values, words, conflict, reasons,
 * version. */
#include <simmerknot.h>
#include <stdio.h>
#include <stdlib.h>
#include <string.h>

static int passed;

static void check(int holds, const char *what) {
    if (!holds) {
        printf("header: %s\n", what);
        exit(1);
    }
    passed++;
}

/* The list once more, in its own order. */
struct row {
    uint32_t number;
    int constant;
    const char *name, *text;
};
#define ROW(number, name, text) {number, SIMMERKNOT_##name, #name, text},
static const struct row rows[] = {SIMMERKNOT_REFUSALS(ROW)};
enum { ROWS = sizeof rows / sizeof rows[0] };

static void limits(void) {
    check(SIMMERKNOT_MOST_ATOMS == 512, "512 atoms");
    check(SIMMERKNOT_MOST_WORDS == 8192, "8,192 words");
    check(SIMMERKNOT_MOST_GROUPS == 64, "64 groups");
    check(SIMMERKNOT_MOST_LITERALS == 64, "64 literals");
    check(SIMMERKNOT_MOST_LINE == 32768, "line 32,768");
    check(SIMMERKNOT_MOST_RANK == 1023, "rank 1,023");
    check(SIMMERKNOT_MOST_SHEET_BYTES == 65536, "65,536 bytes");
    check(SIMMERKNOT_MOST_NAME_BYTES == 24, "24 bytes");
    check(SIMMERKNOT_WORD_BUFFER_BYTES == 16384, "a word is two bytes");
    check(SIMMERKNOT_NAME_BUFFER_BYTES == 2048, "a name entry is four bytes");
    check(SIMMERKNOT_VALUE_SHEET_BYTES == 13824, "512 lines of 27 bytes");
    check(SIMMERKNOT_REASON_SHEET_BYTES == 18432, "1,024 lines of 18 bytes");
}

/* Numbers of document 01 but for 19, which is retired, and, from 21 on, of document 02. */
static uint32_t number_in_row(uint32_t i) { return i < 18 ? i + 1 : i < 21 ? i + 2 : 34; }

static void refusals(void) {
    uint32_t i, j;
    check(ROWS == 22 && (int)SIMMERKNOT_LAST_REFUSAL == (int)rows[ROWS - 1].number, "the last number is the list's last");
    for (i = 0; i < ROWS; i++) {
        const uint32_t number = number_in_row(i);
        check(rows[i].number == number, "numbers in order");
        check(rows[i].constant == (int)number, "a constant is its number");
        check(strcmp(simmerknot_refusal_name(number), rows[i].name) == 0, "the name of a number");
        check(strcmp(simmerknot_refusal_text(number), rows[i].text) == 0, "the text of a number");
        check(strlen(rows[i].text) > 9 && !strchr(rows[i].text, '\n'), "a text is one line");
        for (j = 0; j < i; j++) check(strcmp(rows[i].text, rows[j].text) != 0, "no text stands twice");
    }
    check(SIMMERKNOT_BROKEN_RECORD == 17 && strcmp(simmerknot_refusal_name(17), "BROKEN_RECORD") == 0, "the name of 17");
    check(strstr(simmerknot_refusal_text(17), "mark") && strstr(simmerknot_refusal_text(17), "count"), "17 has two causes");
    check(*simmerknot_refusal_name(0) == 0 && *simmerknot_refusal_text(0) == 0, "0 is no refusal");
    check(*simmerknot_refusal_name(19) == 0 && *simmerknot_refusal_text(19) == 0, "19 is retired");
    for (i = 23; i < 34; i++) check(*simmerknot_refusal_name(i) == 0 && *simmerknot_refusal_text(i) == 0, "23 to 33 are not in the list");
    check(*simmerknot_refusal_name(35) == 0 && *simmerknot_refusal_text(35) == 0, "35 is not in the list");
    check(*simmerknot_refusal_name(0xffffffffu) == 0 && *simmerknot_refusal_text(0xffffffffu) == 0, "the largest number");
}

static void answers(void) {
    const uint64_t refused = ((uint64_t)10 << 32) + 65536, edge = (uint64_t)1 << 32;
    check(!simmerknot_refused(0) && simmerknot_number(0) == 0 && simmerknot_place(0) == 0, "0");
    check(!simmerknot_refused(13824) && simmerknot_number(13824) == 0, "a length");
    check(!simmerknot_refused(edge - 1) && simmerknot_number(edge - 1) == 0, "the largest answer that is none");
    check(simmerknot_refused(edge) && simmerknot_number(edge) == 1 && simmerknot_place(edge) == 0, "1 at 0");
    check(simmerknot_refused(refused) && simmerknot_number(refused) == 10 && simmerknot_place(refused) == 65536, "10 at 65,536");
}

static void values(void) {
    int byte;
    for (byte = 0; byte < 256; byte++) {
        const simmerknot_value code = simmerknot_value_of_code((uint8_t)byte);
        const simmerknot_value letter = simmerknot_value_of_letter((uint8_t)byte);
        const char *found = byte ? strchr("fuit", byte) : NULL;
        check((int)code == (byte < 4 ? byte : 4), "a code's value");
        check((int)letter == (found ? (int)(found - strchr("fuit", 'f')) : 4), "a letter's value");
    }
    check(SIMMERKNOT_F < SIMMERKNOT_U && SIMMERKNOT_U < SIMMERKNOT_I && SIMMERKNOT_I < SIMMERKNOT_T, "truth order");
}

static void entries(void) {
    static const uint8_t names[] = {1, 0, 0, 0, 0xf8, 0xff, 0x1f, 0, 0x78, 0x56, 0x34, 0x92};
    const uint32_t last = simmerknot_name_entry(names, 1);
    check(simmerknot_name_entry(names, 0) == 1, "entry 0");
    check(simmerknot_name_place(last) == 65535 && simmerknot_name_len(last) == 24, "entry 1");
    check(simmerknot_name_entry(names, 2) == 0x92345678u, "four bytes, low byte first");
}

/* The words in an allocation of exactly so many bytes, low byte first. */
static uint8_t *table_of(const uint16_t *words, size_t len) {
    uint8_t *bytes = (uint8_t *)malloc(len);
    size_t i;
    check(bytes || len == 0, "memory");
    for (i = 0; i < len; i++) bytes[i] = (uint8_t)(i % 2 ? words[i / 2] / 256 : words[i / 2] % 256);
    return bytes;
}

static size_t used(const uint16_t *words, size_t len) {
    uint8_t *bytes = table_of(words, len);
    const size_t answer = simmerknot_words_used(bytes, len);
    free(bytes);
    return answer;
}

static uint32_t line_of(const uint16_t *words, size_t len, uint32_t head) {
    uint8_t *bytes = table_of(words, len);
    const uint32_t answer = simmerknot_line_of(bytes, len, head);
    free(bytes);
    return answer;
}

static size_t record_end(const uint16_t *words, size_t len, size_t at) {
    uint8_t *bytes = table_of(words, len);
    const size_t answer = simmerknot_record_end(bytes, len, at);
    free(bytes);
    return answer;
}

/* What the sheet "a\tb -c\td\n-a\n" fills, and a zero: cut at every byte. */
static void words_of_a_sheet(void) {
    static const uint16_t words[] = {0, 1, 2, 2, 2, 5, 1, 6, 1, 2, 0, 0};
    size_t len;
    for (len = 0; len <= sizeof words; len++) {
        const size_t count = len / 2, whole = count < 8 ? 0 : count < 11 ? 8 : 11;
        check(used(words, len) == whole, "the words of whole records");
        check(line_of(words, len, 0) == (whole >= 8 ? 1 : 0), "the line of a");
        check(line_of(words, len, 1) == (whole == 11 ? 2 : 0), "the line of -a");
        check(line_of(words, len, 2) == 0 && line_of(words, len, 5) == 0, "literals that head no rule");
        check(record_end(words, len, 0) == (whole >= 8 ? 8 : 0), "the end of the first record");
        check(record_end(words, len, 8) == (whole == 11 ? 11 : 0), "the end of the second");
        check(record_end(words, len, 11) == 0 && record_end(words, len, 12) == 0, "no record in the rest");
    }
}

static void words_made_by_hand(void) {
    static const uint16_t none[] = {0, 0, 0, 0, 0, 0, 0}, mixed[] = {6, 9, 0, 1, 0, 0, 2, 32768, 0, 6, 8, 0};
    static const uint16_t long_body[] = {0, 1, 65535, 0, 0, 0}, long_group[] = {0, 1, 1, 65535, 0, 0}, empty_group[] = {4, 1, 1, 0};
    uint32_t head;
    for (head = 0; head < 9; head++) check(line_of(none, sizeof none, head) == 0, "no line in zeros");
    check(used(none, sizeof none) == 0, "no words in zeros");
    check(used(mixed, sizeof mixed) == 3, "the words before line 0");
    check(line_of(mixed, sizeof mixed, 1) == 0, "line 0");
    check(line_of(mixed, sizeof mixed, 2) == 32768, "a line after line 0, both its bytes");
    check(line_of(mixed, sizeof mixed, 6) == 9, "the first record of two");
    check(line_of(mixed, sizeof mixed, 65536 + 6) == 0, "a head that is no word");
    check(line_of(mixed, sizeof mixed, 0xffffffffu) == 0, "the largest head");
    check(used(long_body, sizeof long_body) == 0 && line_of(long_body, sizeof long_body, 0) == 0, "65,535 groups");
    check(used(long_group, sizeof long_group) == 0 && line_of(long_group, sizeof long_group, 0) == 0, "65,535 literals");
    check(used(empty_group, sizeof empty_group) == 4 && line_of(empty_group, sizeof empty_group, 4) == 1, "a group of none");
    check(record_end(mixed, sizeof mixed, 3) == 6 && record_end(mixed, sizeof mixed, 9) == 12, "a record in the midst");
    check(record_end(mixed, sizeof mixed, SIZE_MAX) == 0 && record_end(mixed, sizeof mixed, SIZE_MAX / 2) == 0, "far outside");
    check(used(NULL, 0) == 0 && line_of(NULL, 0, 0) == 0 && record_end(NULL, 0, 0) == 0, "no words");
    check(simmerknot_words_used(NULL, 0) == 0 && simmerknot_line_of(NULL, 0, 0) == 0, "no words, and a null pointer");
}

/* 1,024 heads, 512 names and 8,192 words at once: 3 for a head, 2 for a literal alone, 3 for a group of two. */
static void words_of_a_full_sheet(void) {
    static char sheet[32768];
    static uint8_t table[SIMMERKNOT_WORD_BUFFER_BYTES + 7], names[SIMMERKNOT_NAME_BUFFER_BYTES];
    static uint8_t text[SIMMERKNOT_VALUE_SHEET_BYTES], valued[SIMMERKNOT_MOST_ATOMS];
    size_t len = 0, used_bytes;
    uint32_t head;
    for (head = 0; head < 1024; head++) {
        len += (size_t)sprintf(sheet + len, "%sn%u\tn0\tn0 n0\n", head % 2 ? "-" : "", (unsigned)(head / 2));
    }
    check(!simmerknot_refused(simmerknot_sheet((const uint8_t *)sheet, len, table, sizeof table, names, sizeof names,
                                               text, sizeof text)), "the full sheet");
    check(simmerknot_words_used(table, sizeof table) == 8192, "8,192 words");
    check(simmerknot_words_used(table, 16384) == 8192, "a buffer that is full");
    check(simmerknot_words_used(table, 16383) == 8184, "one that is cut short");
    for (head = 0; head < 1024; head++) check(simmerknot_line_of(table, sizeof table, head) == head + 1, "a head's line");
    check(simmerknot_line_of(table, sizeof table, 1024) == 0, "a literal that is in no sheet");
    used_bytes = 2 * simmerknot_words_used(table, sizeof table);
    check(simmerknot_evaluate(512, table, used_bytes, valued, sizeof valued) == 0, "its words, evaluated");
    check(simmerknot_conflict(512, table, used_bytes) == SIMMERKNOT_NO_CONFLICT, "its words, asked for a conflict");
    check(simmerknot_conflict(512, table, used_bytes + 2) == (uint64_t)SIMMERKNOT_TABLE_TOO_LONG << 32, "one word more");
    check(simmerknot_refused(simmerknot_sheet((const uint8_t *)sheet, len - 1, table, sizeof table, names, sizeof names,
                                              text, sizeof text)), "a sheet that is refused");
    check(simmerknot_words_used(table, sizeof table) == 0 && simmerknot_line_of(table, sizeof table, 0) == 0, "no words of it");
}

/* p and -p as facts, lent as bytes that nothing may write. */
static void conflict(void) {
    static const uint8_t both[] = {0, 0, 1, 0, 0, 0, 1, 0, 2, 0, 0, 0};
    uint64_t (*const ask)(uint64_t, const uint8_t *, size_t) = simmerknot_conflict;
    const uint64_t lone = ask(1, both, 7), above = ask(513, both, sizeof both);
    check(SIMMERKNOT_NO_CONFLICT == 0 && SIMMERKNOT_CONFLICT == 1, "no is 0 and yes is 1");
    check(!simmerknot_refused(SIMMERKNOT_NO_CONFLICT) && !simmerknot_refused(SIMMERKNOT_CONFLICT), "neither is a refusal");
    check(ask(1, both, sizeof both) == SIMMERKNOT_CONFLICT, "both literals");
    check(ask(1, both, 6) == SIMMERKNOT_NO_CONFLICT, "one of them");
    check(ask(0, NULL, 0) == SIMMERKNOT_NO_CONFLICT && ask(512, NULL, 0) == SIMMERKNOT_NO_CONFLICT, "no table");
    check(simmerknot_number(lone) == SIMMERKNOT_CUT_SHORT && simmerknot_place(lone) == 3, "a lone byte");
    check(simmerknot_number(above) == SIMMERKNOT_TOO_MANY_ATOMS && simmerknot_place(above) == 0, "N above 512");
}

/* p and -p as facts, and a sheet for them: the only one but for its ranks. */
static void reasons(void) {
    static const uint8_t both[] = {0, 0, 1, 0, 0, 0, 1, 0, 2, 0, 0, 0}, value[] = {SIMMERKNOT_I}, wrong[] = {SIMMERKNOT_T};
    static const char good[] = "0\t1023\t0\t0\n1\t0\t1\t0\n", other[] = "0\t0\t1\t0\n1\t0\t1\t0\n";
    static uint8_t room[SIMMERKNOT_REASON_SHEET_BYTES];
    uint64_t (*const write)(uint64_t, const uint8_t *, size_t, uint8_t *, size_t) = simmerknot_reasons;
    uint64_t (*const look)(uint64_t, const uint8_t *, size_t, const uint8_t *, size_t, const uint8_t *, size_t) =
        simmerknot_check_reasons;
    const uint8_t *text = (const uint8_t *)good;
    const size_t len = sizeof good - 1;
    const uint64_t needed = write(1, both, sizeof both, NULL, 0), written = write(1, both, sizeof both, room, sizeof room);
    check(simmerknot_number(needed) == SIMMERKNOT_TEXT_ROOM_TOO_SMALL, "no room");
    check(!simmerknot_refused(written) && written == simmerknot_place(needed), "as much as was told");
    check(look(1, both, sizeof both, value, 1, room, (size_t)written) == 0, "what is written is accepted");
    check(write(1, both, sizeof both, room, (size_t)written) == written, "in a room of just that");
    check(write(0, NULL, 0, NULL, 0) == 0 && write(512, NULL, 0, NULL, 0) == 0, "the empty sheet of no table");
    check(simmerknot_number(write(513, both, sizeof both, room, sizeof room)) == SIMMERKNOT_TOO_MANY_ATOMS, "N above 512");
    check(simmerknot_number(write(1, both, 7, room, sizeof room)) == SIMMERKNOT_CUT_SHORT, "a lone byte");
    check(look(1, both, sizeof both, value, 1, text, len) == 0, "what somebody wrote");
    check(look(0, NULL, 0, NULL, 0, NULL, 0) == 0, "nothing of nothing");
    check(look(1, both, sizeof both, NULL, 0, text, len) == (uint64_t)SIMMERKNOT_VALUE_ROOM_TOO_SMALL << 32, "no values");
    check(look(1, both, sizeof both, wrong, 1, text, len) == ((uint64_t)SIMMERKNOT_NOT_A_MODEL << 32) + 3, "-p is a fact");
    check(look(1, both, sizeof both, (const uint8_t *)"\4", 1, text, len) == (uint64_t)SIMMERKNOT_NOT_A_TRUTH_CODE << 32, "code 4");
    check(look(1, both, sizeof both, value, 1, text, len - 1) == ((uint64_t)SIMMERKNOT_TEXT_BROKEN << 32) + len - 1, "a text cut short");
    check(look(1, both, sizeof both, value, 1, text, 11) == ((uint64_t)SIMMERKNOT_LINE_NOT_JUSTIFIED << 32) + 2, "one line of two");
    check(look(1, both, sizeof both, value, 1, (const uint8_t *)other, sizeof other - 1) ==
              ((uint64_t)SIMMERKNOT_LINE_NOT_JUSTIFIED << 32) + 1, "a fact of the negation");
}

static void version(void) {
    char text[40];
    snprintf(text, sizeof text, "%d.%d.%d", SIMMERKNOT_VERSION_MAJOR, SIMMERKNOT_VERSION_MINOR, SIMMERKNOT_VERSION_PATCH);
    check(strcmp(text, SIMMERKNOT_VERSION_TEXT) == 0, "version as text");
    check(simmerknot_version() == SIMMERKNOT_VERSION, "version as function");
}

int main(void) {
    limits();
    refusals();
    answers();
    values();
    entries();
    words_of_a_sheet();
    words_made_by_hand();
    words_of_a_full_sheet();
    conflict();
    reasons();
    version();
    printf("%d checks\n", passed);
    return 0;
}
