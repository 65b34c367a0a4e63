/* marks FILE..: the mark of every name in a sheet, and the lines behind a contradiction; or what is wrong with the sheet, and where.
 *
 *     cc marks.c $(pkg-config --cflags --libs simmerknot) -o marks && ./marks season.sheet
 */
#include <simmerknot.h>
#include <stdio.h>

/* The buffers that a sheet is read with. They may be lent again: each call writes every entry anew. */
static uint8_t words[SIMMERKNOT_WORD_BUFFER_BYTES];
static uint8_t names[SIMMERKNOT_NAME_BUFFER_BYTES];
static uint8_t text[SIMMERKNOT_VALUE_SHEET_BYTES];

/* One byte more than a sheet may have, so that a longer file is refused and not cut. */
static uint8_t sheet[SIMMERKNOT_MOST_SHEET_BYTES + 1];

static const char *in_words(simmerknot_value value) {
    switch (value) {
    case SIMMERKNOT_F: return "false";
    case SIMMERKNOT_U: return "unknown: nobody spoke";
    case SIMMERKNOT_I: return "inconsistent: sources contradict each other";
    case SIMMERKNOT_T: return "true";
    default: return "no value";
    }
}

/* Where to look: the line of the rule for the atom and of the one against it; either may be missing. */
static void print_lines(uint32_t atom) {
    const uint32_t for_it = simmerknot_line_of(words, sizeof words, 2 * atom);
    const uint32_t against_it = simmerknot_line_of(words, sizeof words, 2 * atom + 1);
    if (for_it) printf(", line %lu for it", (unsigned long)for_it);
    if (against_it) printf(", line %lu against it", (unsigned long)against_it);
}

/* The value sheet is lines of name, tab, letter, one for each atom. */
static void print_marks(size_t len) {
    size_t start = 0, at;
    uint32_t atom = 0;
    for (at = 0; at < len; at++) {
        simmerknot_value value;
        if (text[at] != '\n') continue;
        value = simmerknot_value_of_letter(text[at - 1]);
        printf("%-24.*s %s", (int)(at - 2 - start), (const char *)text + start, in_words(value));
        if (value == SIMMERKNOT_I) print_lines(atom);
        printf("\n");
        start = at + 1;
        atom++;
    }
}

/* A compiler's way of saying where: FILE:LINE:COLUMN, both from 1. */
static void print_refusal(const char *file, uint64_t answer) {
    const uint32_t number = simmerknot_number(answer), place = simmerknot_place(answer);
    size_t at, line = 1, column = 1;
    fprintf(stderr, "%s:", file);
    switch (number) {
    case SIMMERKNOT_SECOND_RULE:
    case SIMMERKNOT_WRONG_BYTE:
    case SIMMERKNOT_NAME_TOO_LONG:
    case SIMMERKNOT_TOO_MANY_NAMES:
    case SIMMERKNOT_TOO_MANY_IN_BODY:
    case SIMMERKNOT_TOO_MANY_WORDS:
        for (at = 0; at < place; at++) {
            if (sheet[at] == '\n') {
                line++;
                column = 1;
            } else {
                column++;
            }
        }
        fprintf(stderr, "%lu:%lu:", (unsigned long)line, (unsigned long)column);
        break;
    default:
        break;
    }
    fprintf(stderr, " refused: %s (number %lu)\n", simmerknot_refusal_text(number), (unsigned long)number);
}

/* 0 if the sheet was accepted. */
static int marks(const char *file) {
    uint64_t answer;
    size_t len;
    FILE *in = fopen(file, "rb");
    if (!in) {
        perror(file);
        return 1;
    }
    len = fread(sheet, 1, sizeof sheet, in);
    if (ferror(in)) {
        perror(file);
        fclose(in);
        return 1;
    }
    fclose(in);
    answer = simmerknot_sheet(sheet, len, words, sizeof words, names, sizeof names, text, sizeof text);
    if (simmerknot_refused(answer)) {
        print_refusal(file, answer);
        return 1;
    }
    print_marks((size_t)answer);
    return 0;
}

int main(int argc, char **argv) {
    int i, failed = 0;
    if (simmerknot_version() != SIMMERKNOT_VERSION) {
        fprintf(stderr, "marks: header and library are of two versions\n");
        return 2;
    }
    if (argc < 2) {
        fprintf(stderr, "marks FILE..\n");
        return 2;
    }
    for (i = 1; i < argc; i++) failed |= marks(argv[i]);
    return failed;
}
