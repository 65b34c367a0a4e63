/* morning SHEET [LITERAL..]: whether a sheet's rules, with each literal as a fact of the day beside them, have an inconsistent atom.
 * It prints "no conflict" (exit status 0) or "conflict" (1). Status 2: it could not tell, and standard error says why.
 *
 *     cc morning.c $(pkg-config --cflags --libs simmerknot) -o morning && ./morning morning.sheet gap.r0911
 */
#include <simmerknot.h>
#include <stdio.h>
#include <string.h>

enum { CANNOT_TELL = 2, NO_LITERAL = 65535 };

/* The sheet's names, and its rules as a table, behind which the facts of the day are put. */
static uint8_t table[SIMMERKNOT_WORD_BUFFER_BYTES];
static uint8_t names[SIMMERKNOT_NAME_BUFFER_BYTES];
static size_t table_len;
static uint32_t atoms;

/* One byte more than a sheet may have, so that a longer file is refused and not cut. */
static uint8_t sheet[SIMMERKNOT_MOST_SHEET_BYTES + 1];

/* FILE, or FILE:LINE where a line is known; what is wrong, and with which literal. */
static int refuse(const char *file, uint32_t line, uint32_t number, uint32_t literal) {
    fprintf(stderr, "%s:", file);
    if (line) fprintf(stderr, "%lu:", (unsigned long)line);
    fprintf(stderr, " refused: %s (number %lu)", simmerknot_refusal_text(number), (unsigned long)number);
    if (literal != NO_LITERAL) {
        const uint32_t entry = simmerknot_name_entry(names, literal / 2);
        fprintf(stderr, ": %s%.*s", literal % 2 ? "-" : "", (int)simmerknot_name_len(entry),
                (const char *)sheet + simmerknot_name_place(entry));
    }
    fprintf(stderr, "\n");
    return CANNOT_TELL;
}

/* 0 if the sheet was accepted: its rules are the table then, and its names are counted. */
static int read_sheet(const char *file) {
    static uint8_t text[SIMMERKNOT_VALUE_SHEET_BYTES];
    FILE *in = fopen(file, "rb");
    const size_t len = in ? fread(sheet, 1, sizeof sheet, in) : 0;
    uint64_t answer;
    if (!in || ferror(in)) {
        perror(file);
        if (in) fclose(in);
        return CANNOT_TELL;
    }
    fclose(in);
    answer = simmerknot_sheet(sheet, len, table, sizeof table, names, sizeof names, text, sizeof text);
    if (simmerknot_refused(answer)) {
        const uint32_t number = simmerknot_number(answer);
        uint32_t at, line = number != SIMMERKNOT_SHEET_TOO_LONG;
        for (at = 0; at < simmerknot_place(answer); at++) line += sheet[at] == '\n';
        return refuse(file, line, number, NO_LITERAL);
    }
    table_len = 2 * simmerknot_words_used(table, sizeof table);
    while (atoms < SIMMERKNOT_MOST_ATOMS && simmerknot_name_entry(names, atoms) != 0) atoms++;
    return 0;
}

/* The code of a literal, a name of the sheet or "-" and one; NO_LITERAL if it is none. */
static uint32_t code_of(const char *literal) {
    const uint32_t negation = *literal == '-';
    uint32_t atom;
    for (atom = 0; atom < atoms; atom++) {
        const uint32_t entry = simmerknot_name_entry(names, atom);
        const size_t len = simmerknot_name_len(entry);
        const uint8_t *name = sheet + simmerknot_name_place(entry);
        if (strlen(literal + negation) == len && memcmp(literal + negation, name, len) == 0) return 2 * atom + negation;
    }
    return NO_LITERAL;
}

/* A fact of the day is a record made by hand: its head, line 0, 0 groups. 0 if it was put behind the others. */
static int put_fact(const char *file, const char *literal) {
    const uint32_t head = code_of(literal);
    const uint8_t record[2 * SIMMERKNOT_BODY_AT] = {(uint8_t)(head % 256), (uint8_t)(head / 256)};
    if (head == NO_LITERAL) {
        fprintf(stderr, "%s: no such name: %s\n", file, literal);
        return CANNOT_TELL;
    }
    if (sizeof table - table_len < sizeof record) return refuse(file, 0, SIMMERKNOT_TABLE_TOO_LONG, head);
    memcpy(table + table_len, record, sizeof record);
    table_len += sizeof record;
    return 0;
}

int main(int argc, char **argv) {
    uint64_t answer;
    int i;
    if (simmerknot_version() != SIMMERKNOT_VERSION) {
        fprintf(stderr, "morning: header and library are of two versions\n");
        return CANNOT_TELL;
    }
    if (argc < 2) {
        fprintf(stderr, "morning SHEET [LITERAL..]\n");
        return CANNOT_TELL;
    }
    if (read_sheet(argv[1]) != 0) return CANNOT_TELL;
    for (i = 2; i < argc; i++) {
        if (put_fact(argv[1], argv[i]) != 0) return CANNOT_TELL;
    }
    answer = simmerknot_conflict(atoms, table, table_len);
    if (simmerknot_refused(answer)) {
        /* A second rule is a fact whose head has one already: in a line of the sheet, or in none if the fact was given twice. */
        const uint32_t number = simmerknot_number(answer);
        const uint32_t head = number == SIMMERKNOT_SECOND_RULE ? simmerknot_word(table, simmerknot_place(answer)) : NO_LITERAL;
        return refuse(argv[1], simmerknot_line_of(table, table_len, head), number, head);
    }
    if (puts(answer == SIMMERKNOT_CONFLICT ? "conflict" : "no conflict") == EOF || fflush(stdout) == EOF) {
        perror("morning");
        return CANNOT_TELL;
    }
    return answer == SIMMERKNOT_CONFLICT;
}
