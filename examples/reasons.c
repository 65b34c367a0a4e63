/* reasons SHEET: why each literal of a sheet's model is in it, as a reason sheet, which is checked before it is printed.
 * reasons SHEET CHECKED: whether the reason sheet in the file CHECKED is a good one for SHEET and its values; it says "accepted", or
 * which line is refused and why.
 * Exit status 0: printed or accepted. 1: the reason sheet is refused. 2: it could not tell, and standard error says why.
 *
 *     cc reasons.c $(pkg-config --cflags --libs simmerknot) -o reasons && ./reasons season.sheet
 */
#include <simmerknot.h>
#include <stdio.h>
#include <stdlib.h>

enum { REFUSED = 1, CANNOT_TELL = 2, NO_LITERAL = 65535 };

/* The sheet, its rules as a table, its names, and the value of each. */
static uint8_t *sheet;
static uint8_t table[SIMMERKNOT_WORD_BUFFER_BYTES];
static uint8_t names[SIMMERKNOT_NAME_BUFFER_BYTES];
static uint8_t values[SIMMERKNOT_MOST_ATOMS];
static size_t table_len;
static uint32_t atoms;

/* FILE, or FILE:LINE where a line is known, and what is wrong. */
static int cannot_tell(const char *file, uint32_t line, uint64_t answer) {
    const uint32_t number = simmerknot_number(answer);
    fprintf(stderr, "%s:", file);
    if (line) fprintf(stderr, "%lu:", (unsigned long)line);
    fprintf(stderr, " refused: %s (number %lu)\n", simmerknot_refusal_text(number), (unsigned long)number);
    return CANNOT_TELL;
}

/* All bytes of the file, to be freed; NULL if they could not be read, and standard error says why. */
static uint8_t *read_file(const char *file, size_t *len) {
    FILE *in = fopen(file, "rb");
    size_t room = 1 << 16;
    uint8_t *bytes = malloc(room), *more = bytes;
    *len = 0;
    while (in && more && !feof(in) && !ferror(in)) {
        *len += fread(bytes + *len, 1, room - *len, in);
        if (*len == room && (more = realloc(bytes, room *= 2))) bytes = more;
    }
    if (!in || !more || ferror(in)) {
        perror(file);
        free(bytes);
        bytes = NULL;
    }
    if (in) fclose(in);
    return bytes;
}

static uint32_t lines_before(const uint8_t *text, size_t at) {
    uint32_t lines = 0;
    while (at > 0) lines += text[--at] == '\n';
    return lines;
}

/* 0 if the sheet was accepted: its rules are the table then, and its names have values. */
static int read_sheet(const char *file) {
    static uint8_t text[SIMMERKNOT_VALUE_SHEET_BYTES];
    uint64_t answer;
    size_t len;
    sheet = read_file(file, &len);
    if (!sheet) return CANNOT_TELL;
    answer = simmerknot_sheet(sheet, len, table, sizeof table, names, sizeof names, text, sizeof text);
    if (simmerknot_refused(answer)) {
        const uint32_t line = 1 + lines_before(sheet, simmerknot_place(answer));
        return cannot_tell(file, simmerknot_number(answer) == SIMMERKNOT_SHEET_TOO_LONG ? 0 : line, answer);
    }
    table_len = 2 * simmerknot_words_used(table, sizeof table);
    while (atoms < SIMMERKNOT_MOST_ATOMS && simmerknot_name_entry(names, atoms) != 0) atoms++;
    answer = simmerknot_evaluate(atoms, table, table_len, values, sizeof values);
    return simmerknot_refused(answer) ? cannot_tell(file, 0, answer) : 0;
}

static uint64_t check(const uint8_t *text, size_t len) {
    return simmerknot_check_reasons(atoms, table, table_len, values, sizeof values, text, len);
}

/* The status, if what was printed has arrived. */
static int printed(int status) {
    if (fflush(stdout) == EOF || ferror(stdout)) {
        perror("reasons");
        return CANNOT_TELL;
    }
    return status;
}

/* The reason sheet is asked for with no room, to learn its length, and then with as much. */
static int print_reasons(const char *file) {
    uint64_t answer = simmerknot_reasons(atoms, table, table_len, NULL, 0);
    const size_t len = simmerknot_place(answer);
    uint8_t *text = malloc(len + 1);
    int status;
    if (!text) {
        perror("reasons");
        return CANNOT_TELL;
    }
    answer = simmerknot_reasons(atoms, table, table_len, text, len);
    if (!simmerknot_refused(answer)) answer = check(text, len);
    if (simmerknot_refused(answer)) {
        status = cannot_tell(file, 0, answer);
    } else {
        fwrite(text, 1, len, stdout);
        status = printed(0);
    }
    free(text);
    return status;
}

/* Where the line of that number, from 1, begins; the length if there is none. */
static size_t line_at(const uint8_t *text, size_t len, uint32_t line) {
    size_t at = 0;
    while (line > 1 && at < len) line -= text[at++] == '\n';
    return at;
}

/* The literal that the line of that number must be of: each value but u has a line or two, in the order of literal codes. */
static uint32_t literal_wanted(uint32_t line) {
    uint32_t code;
    for (code = 0; code < 2 * atoms; code++) {
        const uint8_t value = values[code / 2];
        if (value == SIMMERKNOT_I || value == (code % 2 ? SIMMERKNOT_F : SIMMERKNOT_T)) line--;
        if (line == 0) return code;
    }
    return NO_LITERAL;
}

/* The literal of the line that begins there; the text is lines. */
static uint32_t literal_given(const uint8_t *text, size_t at, size_t len) {
    uint32_t code = 0;
    if (at == len) return NO_LITERAL;
    while (text[at] != '\t') code = 10 * code + text[at++] - (uint32_t)'0';
    return code;
}

/* Why a line is refused: another literal is wanted there, or none, or it is the right one and not justified. */
static void print_why(const uint8_t *text, size_t len, uint32_t line) {
    const uint32_t wanted = literal_wanted(line), given = literal_given(text, line_at(text, len, line), len);
    if (wanted == NO_LITERAL) {
        printf("a line too many");
    } else {
        const uint32_t entry = simmerknot_name_entry(names, wanted / 2);
        printf("%s%s%.*s%s", given == wanted ? "" : "the line of ", wanted % 2 ? "-" : "", (int)simmerknot_name_len(entry),
               (const char *)sheet + simmerknot_name_place(entry),
               given == wanted ? " is not justified, or its rank is above 1,023" : " is missing");
    }
}

static int check_reasons(const char *file) {
    size_t len;
    uint8_t *text = read_file(file, &len);
    const uint64_t answer = text ? check(text, len) : 0;
    const uint32_t number = simmerknot_number(answer), place = simmerknot_place(answer);
    int status = REFUSED;
    if (!text) return CANNOT_TELL;
    if (!simmerknot_refused(answer)) {
        status = 0;
        printf("accepted");
    } else if (number == SIMMERKNOT_TEXT_BROKEN) {
        const uint32_t line = 1 + lines_before(text, place);
        const size_t column = 1 + place - line_at(text, len, line);
        printf("%s:%lu:%lu: refused: %s (number %lu)", file, (unsigned long)line, (unsigned long)column, simmerknot_refusal_text(number),
               (unsigned long)number);
    } else if (number == SIMMERKNOT_LINE_NOT_JUSTIFIED) {
        printf("%s:%lu: refused: ", file, (unsigned long)place);
        print_why(text, len, place);
        printf(" (number %lu)", (unsigned long)number);
    } else {
        free(text);
        return cannot_tell(file, 0, answer);
    }
    printf("\n");
    free(text);
    return printed(status);
}

int main(int argc, char **argv) {
    int status;
    if (simmerknot_version() != SIMMERKNOT_VERSION) {
        fprintf(stderr, "reasons: header and library are of two versions\n");
        return CANNOT_TELL;
    }
    if (argc < 2 || argc > 3) {
        fprintf(stderr, "reasons SHEET [CHECKED]\n");
        return CANNOT_TELL;
    }
    status = read_sheet(argv[1]);
    if (status == 0) status = argc == 2 ? print_reasons(argv[1]) : check_reasons(argv[2]);
    free(sheet);
    return status;
}
