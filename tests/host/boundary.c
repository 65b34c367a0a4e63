/* boundary PLACEMENT CASES: the calls, and the header's functions over words, at the edges of every lent buffer.
 *
 * PLACEMENT says where a lent buffer lies:
 *   exact      an allocation of exactly its size, for AddressSanitizer and valgrind
 *   undefined  the same, and nothing is put into buffers that are only written, so valgrind tells a byte that is used before it is
 *              written, or that should be written and is not
 *   before     its last byte just before a page that can be neither read nor written
 *   after      its first byte just after such a page
 * The archive is not instrumented, so a byte too far by its own code shows only against such a page or under valgrind. Where
 * pages are used, what is only read lies in pages that cannot be written. After the written cases come CASES random ones
 * of each call and of words looked at. The last line is the number of calls checked; the first fault ends the run.
 * With "long" in place of PLACEMENT the one call is a check of a reason sheet above 4 GiB. */
#define _DEFAULT_SOURCE
#include <simmerknot.h>
#include <stdio.h>
#include <stdlib.h>
#include <string.h>
#include <sys/mman.h>
#include <unistd.h>

static enum { EXACT, UNDEFINED, BEFORE, AFTER } placement;
static unsigned long calls;
static const char *what = "";

static void check(int holds, const char *broken) {
    if (!holds) {
        printf("boundary: %s: %s (call %lu)\n", what, broken, calls);
        exit(1);
    }
}

/* Lent buffers. */

struct lent {
    uint8_t *at;
    size_t len;
    uint8_t *map; /* NULL where it is an allocation */
    size_t map_len;
};

/* A copy of the bytes; where they are NULL, nothing is put there. */
static struct lent lend(const uint8_t *bytes, size_t len) {
    struct lent b = {NULL, len, NULL, 0};
    const size_t page = (size_t)sysconf(_SC_PAGESIZE), pages = (len + page - 1) / page * page;
    if (placement == EXACT || placement == UNDEFINED) {
        b.at = malloc(len);
        check(b.at != NULL || len == 0, "no memory");
    } else {
        b.map_len = pages + page;
        b.map = mmap(NULL, b.map_len, PROT_READ | PROT_WRITE, MAP_PRIVATE | MAP_ANONYMOUS, -1, 0);
        check(b.map != MAP_FAILED, "no memory");
        b.at = placement == BEFORE ? b.map + pages - len : b.map + page;
        check(mprotect(placement == BEFORE ? b.map + pages : b.map, page, PROT_NONE) == 0, "no guard");
    }
    if (len && bytes) memcpy(b.at, bytes, len);
    return b;
}

/* For a buffer that the call only reads. */
static struct lent lend_to_read(const uint8_t *bytes, size_t len) {
    struct lent b = lend(bytes, len);
    const size_t page = (size_t)sysconf(_SC_PAGESIZE);
    if (b.map && b.map_len > page) {
        check(mprotect(placement == BEFORE ? b.map : b.map + page, b.map_len - page, PROT_READ) == 0, "no read-only pages");
    }
    return b;
}

static void take_back(struct lent b) {
    if (b.map) munmap(b.map, b.map_len);
    else free(b.at);
}

/* What lies in a buffer before a call: no byte that a call would write in its place by chance everywhere. */
static uint8_t filler(size_t i) { return (uint8_t)(0xa5 ^ (i * 7)); }

static struct lent lend_filled(size_t len) {
    uint8_t *bytes;
    struct lent b;
    size_t i;
    if (placement == UNDEFINED) return lend(NULL, len);
    bytes = malloc(len + 1);
    check(bytes != NULL, "no memory");
    for (i = 0; i < len; i++) bytes[i] = filler(i);
    b = lend(bytes, len);
    free(bytes);
    return b;
}

static void check_untouched(struct lent b, size_t from, const char *broken) {
    size_t i;
    if (placement == UNDEFINED) return;
    for (i = from; i < b.len; i++) check(b.at[i] == filler(i), broken);
}

static void check_zero(struct lent b, size_t from, size_t to, const char *broken) {
    size_t i;
    for (i = from; i < to; i++) check(b.at[i] == 0, broken);
}

static uint64_t refusal(uint64_t number, uint64_t place) { return number * ((uint64_t)1 << 32) + place; }

/* Random numbers. */

static uint64_t state = 0x51ee7;

static size_t below(size_t bound) {
    state ^= state << 13;
    state ^= state >> 7;
    state ^= state << 17;
    return (size_t)(state >> 11) % bound;
}

/* The layout of words, read here without the header's functions. */

struct record {
    uint32_t head, line;
    size_t start, end;
};
enum { MOST_RECORDS = 8192 };

static uint32_t word_at(const uint8_t *bytes, size_t at) { return bytes[2 * at] + 256u * bytes[2 * at + 1]; }

static void put_word(uint8_t *bytes, size_t at, size_t word) {
    bytes[2 * at] = (uint8_t)(word % 256);
    bytes[2 * at + 1] = (uint8_t)(word / 256);
}

/* The whole records that the words begin with, word by word; how many there are. */
static size_t records_in(const uint8_t *bytes, size_t len, struct record *records) {
    enum { HEAD, LINE, GROUPS, BODY } next = HEAD;
    size_t found = 0, groups = 0, literals = 0, at;
    for (at = 0; at < len / 2 && found < MOST_RECORDS; at++) {
        const uint32_t word = word_at(bytes, at);
        if (next == HEAD) {
            records[found].head = word;
            records[found].start = at;
            next = LINE;
        } else if (next == LINE) {
            records[found].line = word;
            next = GROUPS;
        } else if (next == GROUPS) {
            groups = word;
            next = BODY;
        } else if (literals > 0) {
            literals--;
        } else {
            literals = word;
            groups--;
        }
        if (next == BODY && groups == 0 && literals == 0) {
            records[found++].end = at + 1;
            next = HEAD;
        }
    }
    return found;
}

static size_t lines_of(const uint8_t *text, size_t len) {
    size_t i, lines = 0;
    for (i = 0; i < len; i++) lines += text[i] == '\n';
    return lines;
}

/* The header's functions over words. */

/* The line of the first of the records with that head. */
static uint32_t first_line(const struct record *records, size_t found, uint32_t head) {
    size_t i;
    for (i = 0; i < found; i++) {
        if (records[i].head == head) return records[i].line;
    }
    return 0;
}

/* How many of the words looked at began with words of a sheet, and how many had a record after those. */
static unsigned long with_words, with_more;

/* Any bytes: the words used, the line of any head, and the end of a record that is taken to begin at any word. */
static void look(const uint8_t *bytes, size_t len) {
    static const uint32_t heads[] = {0, 1, 2, 3, 4, 5, 1023, 1024, 65535, 65536, 65537, UINT32_MAX};
    static const size_t outside[] = {SIZE_MAX, SIZE_MAX - 1, SIZE_MAX - 3, SIZE_MAX / 2, SIZE_MAX / 2 + 1};
    static struct record records[MOST_RECORDS], there[MOST_RECORDS];
    struct lent w = lend_to_read(bytes, len);
    const size_t count = len / 2, found = records_in(bytes, len, records);
    size_t i, used = 0;
    for (i = 0; i < found && records[i].line != 0; i++) used = records[i].end;
    with_words += i > 0;
    with_more += i > 0 && i < found;
    check(simmerknot_words_used(w.at, len) == used, "other words are used");
    for (i = 0; i < sizeof heads / sizeof *heads; i++) {
        check(simmerknot_line_of(w.at, len, heads[i]) == first_line(records, found, heads[i]), "another line");
    }
    for (i = 0; i < count; i += 1 + below(1 + count / 20)) {
        const uint32_t head = word_at(bytes, i);
        const size_t end = records_in(bytes + 2 * i, len - 2 * i, there) ? i + there[0].end : 0;
        check(simmerknot_word(w.at, i) == head, "another word");
        check(simmerknot_line_of(w.at, len, head) == first_line(records, found, head), "another line");
        check(simmerknot_record_end(w.at, len, i) == end, "another end of a record");
    }
    for (i = count; i < count + 4; i++) check(simmerknot_record_end(w.at, len, i) == 0, "a record after the words");
    for (i = 0; i < sizeof outside / sizeof *outside; i++) {
        check(simmerknot_record_end(w.at, len, outside[i]) == 0, "a record far outside the words");
    }
    calls++;
    take_back(w);
}

/* Small words, most of them records with or without a line; else bytes of any kind. */
static void put_any(uint8_t *bytes, size_t len) {
    static const uint16_t edges[] = {0, 64, 65, 256, 32768, 32769, 65535};
    const size_t small = below(3), edge = 1 + below(40);
    size_t i;
    for (i = 0; i < len; i++) bytes[i] = (uint8_t)below(256);
    for (i = 0; small && i < len / 2; i++) put_word(bytes, i, below(edge) ? below(2 + small) : edges[below(7)]);
}

/* Every length from 0 to 40 bytes, all bytes 0, all 255 and any; then random lengths, at times a whole buffer's. */
static void any_words(unsigned long count) {
    static uint8_t bytes[16400];
    const unsigned long all = count;
    size_t len, round;
    what = "any words";
    for (len = 0; len <= 40; len++) {
        memset(bytes, 0, len);
        look(bytes, len);
        memset(bytes, 0xff, len);
        look(bytes, len);
        for (round = 0; round < 20; round++) {
            put_any(bytes, len);
            look(bytes, len);
        }
    }
    while (count--) {
        len = below(1000) == 0 ? 16380 + below(20) : below(10) == 0 ? below(400) : below(80);
        put_any(bytes, len);
        look(bytes, len);
    }
    check(5 * with_words >= all && 10 * with_more >= all, "words of a sheet are rare");
}

/* simmerknot_evaluate and simmerknot_conflict. */

/* What an evaluation gave, as letters. */
static char valued[513];

/* How many tables had a conflict, had none, were refused. */
static unsigned long conflicts, quiet, not_asked;

/* The answer on conflict, by that of an evaluation which had room: the same refusal, or whether a value is i. 3 is never its. */
static void check_conflict(uint64_t n, const uint8_t *table, size_t table_len, uint64_t evaluated) {
    struct lent t = lend_to_read(table, table_len);
    const uint64_t answer = simmerknot_conflict(n, t.at, t.len);
    calls++;
    check(t.len == 0 || memcmp(t.at, table, table_len) == 0, "the question on conflict altered the table");
    if (simmerknot_refused(evaluated)) {
        check(answer == evaluated, "another refusal of the question on conflict");
        not_asked++;
    } else if (strchr(valued, 'i')) {
        check(answer == SIMMERKNOT_CONFLICT, "no conflict, and a value is i");
        conflicts++;
    } else {
        check(answer == SIMMERKNOT_NO_CONFLICT, "a conflict, and no value is i");
        quiet++;
    }
    take_back(t);
}

/* simmerknot_reasons and simmerknot_check_reasons. */

struct reason {
    unsigned literal, rank, head, group;
};
enum { MOST_LINES = 1024 };

/* The reason sheet that was written last, and its lines. */
static uint8_t reasoned[SIMMERKNOT_REASON_SHEET_BYTES];
static size_t reasoned_len, line_count;
static struct reason lines[MOST_LINES + 1];

static unsigned long written, forged;

/* The lines of a reason sheet, which must be one: its numbers, written anew, are its bytes. */
static void read_reasons(void) {
    char again[40];
    size_t at = 0, line_len;
    for (line_count = 0; at < reasoned_len; line_count++) {
        struct reason *l = &lines[line_count];
        unsigned *const numbers[] = {&l->literal, &l->rank, &l->head, &l->group};
        size_t i, from = at;
        check(line_count < MOST_LINES, "more than 1,024 lines");
        for (i = 0; i < 4; i++, from++) {
            *numbers[i] = 0;
            while (from < reasoned_len && reasoned[from] >= '0' && reasoned[from] <= '9' && *numbers[i] < 1024) {
                *numbers[i] = 10 * *numbers[i] + (unsigned)(reasoned[from++] - '0');
            }
        }
        line_len = (size_t)sprintf(again, "%u\t%u\t%u\t%u\n", l->literal, l->rank, l->head, l->group);
        check(line_len <= reasoned_len - at && memcmp(again, reasoned + at, line_len) == 0, "no line of a reason sheet");
        check(l->rank <= SIMMERKNOT_MOST_RANK && l->group <= SIMMERKNOT_MOST_GROUPS, "a rank above 1,023 or a group above 64");
        at += line_len;
    }
}

/* The literals of the lines are those of the values, in code order: both of an i, the atom of a t, the negation of an f. */
static void check_literals(uint64_t n) {
    size_t at = 0;
    unsigned code;
    for (code = 0; code < 2 * n; code++) {
        const char value = valued[code / 2];
        if (value != 'i' && value != (code % 2 ? 'f' : 't')) continue;
        check(at < line_count && lines[at].literal == code, "another literal");
        check(lines[at].head / 2 == code / 2, "a rule of another atom");
        at++;
    }
    check(at == line_count, "a line too many");
}

static uint64_t write_reasons(uint64_t n, const uint8_t *table, size_t table_len, size_t room) {
    struct lent t = lend_to_read(table, table_len), x = lend_filled(room);
    const uint64_t answer = simmerknot_reasons(n, t.at, t.len, x.at, x.len);
    calls++;
    check(t.len == 0 || memcmp(t.at, table, table_len) == 0, "the writer of reasons altered the table");
    if (simmerknot_refused(answer)) {
        const uint32_t number = simmerknot_number(answer);
        check(number == 1 || number == 2 || (number >= 4 && number <= 7) || number == 15, "a number that the writer does not give");
        check(number != 15 || simmerknot_place(answer) > room, "15, and there is room");
        check_untouched(x, 0, "a refusal wrote a reason");
    } else {
        check(answer <= room && answer <= sizeof reasoned, "longer than the text room or than any sheet");
        reasoned_len = (size_t)answer;
        if (reasoned_len) memcpy(reasoned, x.at, reasoned_len);
        check_untouched(x, reasoned_len, "a byte past the reason sheet was altered");
    }
    take_back(t);
    take_back(x);
    return answer;
}

static uint64_t check_sheet(uint64_t n, const uint8_t *table, size_t table_len, const uint8_t *values, size_t values_len,
                            const uint8_t *text, size_t text_len) {
    struct lent t = lend_to_read(table, table_len), v = lend_to_read(values, values_len), x = lend_to_read(text, text_len);
    const uint64_t answer = simmerknot_check_reasons(n, t.at, t.len, v.at, v.len, x.at, x.len);
    const uint32_t number = simmerknot_number(answer);
    calls++;
    check(t.len == 0 || memcmp(t.at, table, table_len) == 0, "the check altered the table");
    check(v.len == 0 || memcmp(v.at, values, values_len) == 0, "the check altered the values");
    check(x.len == 0 || memcmp(x.at, text, text_len) == 0, "the check altered the reason sheet");
    if (simmerknot_refused(answer)) {
        check((number >= 1 && number <= 7) || (number >= 20 && number <= 22) || number == 34, "a number that the check does not give");
    } else {
        check(answer == 0, "accepted, and not 0");
    }
    take_back(t);
    take_back(v);
    take_back(x);
    return answer;
}

static size_t put_reasons(uint8_t *text, const struct reason *row, size_t count) {
    size_t i, len = 0;
    for (i = 0; i < count; i++) {
        len += (size_t)sprintf((char *)text + len, "%u\t%u\t%u\t%u\n", row[i].literal, row[i].rank, row[i].head, row[i].group);
    }
    return len;
}

/* One alteration of a good sheet, or of the values lent with it, and what is then answered. */
static void forge(uint64_t n, const uint8_t *table, size_t table_len, const uint8_t *values) {
    static const uint8_t in_no_sheet[] = {0, ' ', '-', '/', ':', 'x', '\r', 255};
    static struct reason row[MOST_LINES + 1];
    static uint8_t text[SIMMERKNOT_REASON_SHEET_BYTES + 64], other[SIMMERKNOT_MOST_ATOMS + 1];
    enum {
        FEWER_VALUES, NO_CODE, MORE_VALUES,
        CUT, WRONG_BYTE, UNENDED,
        MISSING, SURPLUS, NO_LITERAL, NO_GROUP, NO_FACT, OTHER_ATOM, ABOVE_1023, SWAPPED,
        KINDS
    };
    const size_t kind = below(line_count ? KINDS : CUT);
    const size_t j = line_count ? below(line_count) : 0, k = line_count ? (j + 1) % line_count : 0;
    size_t len = reasoned_len, count = line_count, values_len = (size_t)n, at;
    uint64_t answer, wanted = 0;
    if ((kind < MORE_VALUES && n == 0) || (kind == SWAPPED && j == k)) return;
    memcpy(other, values, values_len);
    memcpy(text, reasoned, len);
    memcpy(row, lines, count * sizeof *row);
    if (kind == FEWER_VALUES) {
        values_len--;
        wanted = refusal(3, 0);
    } else if (kind == NO_CODE) {
        at = below(values_len);
        other[at] = (uint8_t)(4 + below(252));
        wanted = refusal(20, at);
    } else if (kind == MORE_VALUES) {
        other[values_len++] = (uint8_t)below(256);
    } else if (kind <= UNENDED) {
        at = kind == UNENDED ? len - 1 : below(len);
        if (kind == WRONG_BYTE) text[at] = in_no_sheet[below(sizeof in_no_sheet)];
        else len = at;
        /* A sheet that is cut between two lines has lines that are missing. */
        wanted = kind == CUT && (at == 0 || text[at - 1] == '\n') ? refusal(22, 1 + lines_of(text, at)) : refusal(21, at);
    } else {
        wanted = refusal(22, j + 1);
        switch (kind) {
        case MISSING: memmove(row + j, row + j + 1, (--count - j) * sizeof *row); break;
        case SURPLUS:
            row[count++] = row[j];
            wanted = refusal(22, count);
            break;
        case NO_LITERAL: row[j].literal += 1024; break;
        case NO_GROUP: row[j].group += 65; break;
        case NO_FACT: row[j].group = !row[j].group; break; /* a fact has no group 1, and a rule with groups is no fact */
        case OTHER_ATOM: row[j].head = (row[j].head + 2) % 1024; break;
        case ABOVE_1023: row[j].rank = 1024 + (unsigned)below(8976); break;
        default:
            row[j] = lines[k];
            row[k] = lines[j];
            wanted = refusal(22, (j < k ? j : k) + 1);
        }
        len = put_reasons(text, row, count);
    }
    forged++;
    answer = check_sheet(n, table, table_len, other, values_len, text, len);
    /* An earlier line may rest on one whose rank was raised. */
    if (kind == ABOVE_1023) check(answer > refusal(22, 0) && answer <= wanted, "a rank above 1,023 is taken, or another line refused");
    else check(answer == wanted, "another answer of the check");
}

/* The reason sheet of a table, by the answer of an evaluation which had room: the same refusal of both calls; or a sheet with a line for
 * each literal of the values, in a room as large as was told, and no other in a larger one, none in one a byte short; and accepted. */
static void check_reasons(uint64_t n, const uint8_t *table, size_t table_len, uint64_t evaluated) {
    static uint8_t values[SIMMERKNOT_MOST_ATOMS], first[SIMMERKNOT_REASON_SHEET_BYTES];
    const uint64_t needed = write_reasons(n, table, table_len, 0);
    size_t len, i;
    if (simmerknot_refused(evaluated)) {
        check(needed == evaluated, "another refusal of the writer of reasons");
        check(write_reasons(n, table, table_len, 40) == evaluated, "another refusal, where there is room");
        i = n <= sizeof values ? (size_t)n : 1;
        check(check_sheet(n, table, table_len, values, i, reasoned, below(9)) == evaluated, "another refusal of the check");
        return;
    }
    check(needed == 0 || simmerknot_number(needed) == 15, "an accepted table has no reason sheet");
    len = simmerknot_place(needed);
    check(write_reasons(n, table, table_len, len) == len, "the room that was told is refused");
    memcpy(first, reasoned, len);
    read_reasons();
    check_literals(n);
    if (len) check(write_reasons(n, table, table_len, len - 1) == needed, "a room one byte short is taken, or another length is told");
    check(write_reasons(n, table, table_len, len + 1 + below(40)) == len, "another length in a larger room");
    check(memcmp(first, reasoned, len) == 0, "another sheet in a larger room");
    for (i = 0; i < n; i++) values[i] = (uint8_t)simmerknot_value_of_letter((uint8_t)valued[i]);
    check(check_sheet(n, table, table_len, values, (size_t)n, reasoned, reasoned_len) == 0, "our own sheet is refused");
    forge(n, table, table_len, values);
    forge(n, table, table_len, values);
    written++;
}

/* Values are letters, one for each atom; NULL where any will do. */
static uint64_t evaluate_once(uint64_t n, const uint8_t *table, size_t table_len, size_t room, const char *values) {
    struct lent t = lend_to_read(table, table_len), v = lend_filled(room);
    const uint64_t answer = simmerknot_evaluate(n, t.at, t.len, v.at, v.len);
    size_t i;
    calls++;
    check(t.len == 0 || memcmp(t.at, table, table_len) == 0, "the table was altered");
    if (simmerknot_refused(answer)) {
        const uint32_t number = simmerknot_number(answer);
        check(number >= 1 && number <= 7, "a number that evaluation does not give");
        check(number != 3 || (n <= 512 && room < n), "3 against 1, or with room");
        check_untouched(v, 0, "a refusal wrote a value");
    } else {
        check(answer == 0, "evaluated, and not 0");
        check(n <= 512 && n <= room, "accepted against 1 or 3");
        for (i = 0; i < n; i++) {
            const simmerknot_value value = simmerknot_value_of_code(v.at[i]);
            check(value != SIMMERKNOT_NO_VALUE, "no value code");
            if (values) check(value == simmerknot_value_of_letter((uint8_t)values[i]), "another value");
            valued[i] = "fuit"[value];
        }
        valued[n] = 0;
        check_untouched(v, (size_t)n, "a byte past the values was altered");
    }
    take_back(t);
    take_back(v);
    if (simmerknot_number(answer) == 3) evaluate_once(n, table, table_len, (size_t)n, NULL);
    else {
        check_conflict(n, table, table_len, answer);
        check_reasons(n, table, table_len, answer);
    }
    return answer;
}

/* An accepted table with other lines, all 0, all 32,768 or any: the same answer, values and reasons; with one above 32,768: 6 there. */
static void check_lines(uint64_t n, const uint8_t *table, size_t len, size_t room) {
    static struct record records[MOST_RECORDS];
    static uint8_t other[16384], reasons[SIMMERKNOT_REASON_SHEET_BYTES];
    char values[513];
    const size_t found = records_in(table, len, records), kind = below(3), reasons_len = reasoned_len;
    size_t i, at;
    if (found == 0) return;
    memcpy(reasons, reasoned, reasons_len);
    check(len <= sizeof other && records[found - 1].end == len / 2, "an accepted table that is not records");
    strcpy(values, valued);
    memcpy(other, table, len);
    for (i = 0; i < found; i++) put_word(other, records[i].start + 1, kind == 0 ? 0 : kind == 1 ? 32768 : below(32769));
    check(evaluate_once(n, other, len, room, values) == 0, "another answer where only lines differ");
    check(reasoned_len == reasons_len && memcmp(reasoned, reasons, reasons_len) == 0, "another reason sheet where only lines differ");
    at = records[below(found)].start + 1;
    put_word(other, at, 32769 + below(65536 - 32769));
    check(evaluate_once(n, other, len, room, NULL) == refusal(6, at), "a line above 32,768 is not refused, or elsewhere");
}

/* The same table with one word altered or cut at a byte: what it means now, or why it is refused, is the same to both calls. */
static void check_damaged(uint64_t n, const uint8_t *table, size_t len) {
    static const uint16_t edges[] = {0, 1, 2, 64, 65, 1024, 32768, 32769, 65535};
    static uint8_t other[16384];
    char values[513];
    if (len < 2) return;
    strcpy(values, valued);
    memcpy(other, table, len);
    if (below(4)) put_word(other, below(len / 2), below(3) ? below(2 * (size_t)n + 1) : edges[below(9)]);
    else len = below(len);
    evaluate_once(n, other, len, (size_t)n, NULL);
    strcpy(valued, values);
}

/* The same as evaluate_once, and an accepted table with other lines, and damaged. */
static uint64_t evaluate(uint64_t n, const uint8_t *table, size_t table_len, size_t room, const char *values) {
    const uint64_t answer = evaluate_once(n, table, table_len, room, values);
    if (answer == 0) {
        check_lines(n, table, table_len, room);
        check_damaged(n, table, table_len);
    }
    return answer;
}

static size_t put_words(uint8_t *bytes, const uint16_t *words, size_t count) {
    size_t i;
    for (i = 0; i < count; i++) put_word(bytes, i, words[i]);
    return 2 * count;
}

struct table_case {
    const char *what;
    uint64_t n;
    uint16_t words[32];
    size_t count, surplus, room;
    uint64_t number, place;
    const char *values;
};

static const struct table_case table_cases[] = {
    {"no rules, N 0", 0, {0}, 0, 0, 0, 0, 0, ""},
    {"no rules, N 3", 3, {0}, 0, 0, 3, 0, 0, "uuu"},
    {"p", 1, {0, 1, 0}, 3, 0, 1, 0, 0, "t"},
    {"-p", 1, {1, 1, 0}, 3, 0, 1, 0, 0, "f"},
    {"p, -p", 1, {0, 1, 0, 1, 2, 0}, 6, 0, 1, 0, 0, "i"},
    {"p, -p: p, with room to spare", 1, {0, 1, 0, 1, 2, 1, 1, 0}, 8, 0, 9, 0, 0, "i"},
    {"-b: b", 1, {1, 1, 1, 1, 0}, 5, 0, 1, 0, 0, "u"},
    {"a, -a, p: a b", 3, {0, 1, 0, 1, 2, 0, 4, 3, 1, 2, 0, 2}, 12, 0, 3, 0, 0, "iuu"},
    {"a, -a, b, p: a / b", 3, {0, 1, 0, 1, 2, 0, 2, 3, 0, 4, 4, 2, 1, 0, 1, 2}, 16, 0, 3, 0, 0, "itt"},
    {"l, c: l, -l: -c", 2, {0, 1, 0, 2, 2, 1, 1, 0, 1, 3, 1, 1, 3}, 13, 0, 2, 0, 0, "tt"},
    {"p: q, -p: q, q", 2, {0, 1, 1, 1, 2, 1, 2, 1, 1, 2, 2, 3, 0}, 13, 0, 2, 0, 0, "it"},
    {"-p, p: q r, q", 3, {1, 1, 0, 0, 2, 1, 2, 2, 4, 2, 3, 0}, 12, 0, 3, 0, 0, "ftu"},
    {"a, -a, b: a, h, -h: -b, g: h / k, k: g", 5,
     {0, 1, 0, 1, 2, 0, 2, 3, 1, 1, 0, 4, 4, 0, 5, 5, 1, 1, 3, 6, 6, 2, 1, 4, 1, 8, 8, 7, 1, 1, 6}, 31, 0, 5, 0, 0, "iiiii"},
    {"lines 0, 1 and 32,768", 2, {0, 0, 0, 1, 1, 0, 2, 32768, 0}, 9, 0, 2, 0, 0, "it"},
    {"a number, then a zero", 1, {0, 9, 0, 1, 0, 0}, 6, 0, 1, 0, 0, "i"},
    {"lines that repeat and fall", 2, {0, 9, 0, 1, 9, 0, 2, 3, 0}, 9, 0, 2, 0, 0, "it"},
    {"b, a, -a as 0.2.0 had them are two other rules", 2, {2, 0, 0, 0, 1, 0}, 6, 0, 2, 0, 0, "tt"},
    {"N above 512", 513, {0}, 0, 0, 513, 1, 0, NULL},
    {"N far above 512", UINT64_MAX, {0}, 0, 0, 0, 1, 0, NULL},
    {"room below N", 3, {0, 0, 0}, 3, 0, 2, 3, 0, NULL},
    {"no room", 1, {0, 0, 0}, 3, 0, 0, 3, 0, NULL},
    {"cut short after a head", 1, {0}, 1, 0, 1, 4, 1, NULL},
    {"cut short after a line", 1, {0, 1}, 2, 0, 1, 4, 2, NULL},
    {"cut short in a group", 2, {0, 0, 1, 2, 2}, 5, 0, 2, 4, 5, NULL},
    {"a lone byte", 1, {0, 0, 0}, 3, 1, 1, 4, 3, NULL},
    {"a lone byte after a head", 1, {0}, 1, 1, 1, 4, 1, NULL},
    {"a lone byte after a line", 1, {0, 1}, 2, 1, 1, 4, 2, NULL},
    {"a lone byte after a fault", 1, {0, 0, 65}, 3, 1, 1, 6, 2, NULL},
    {"one byte alone", 1, {0}, 0, 1, 1, 4, 0, NULL},
    {"literal not below 2N", 1, {2, 0, 0}, 3, 0, 1, 5, 0, NULL},
    {"literal not below 2N in a body", 1, {0, 0, 1, 1, 65535}, 5, 0, 1, 5, 4, NULL},
    {"line 32,769", 1, {0, 32769, 0}, 3, 0, 1, 6, 1, NULL},
    {"line 65,535, after a rule", 1, {0, 1, 0, 1, 65535, 0}, 6, 0, 1, 6, 4, NULL},
    {"line 40,000 in the last word", 1, {0, 40000}, 2, 0, 1, 6, 1, NULL},
    {"line 40,000 and a lone byte", 1, {0, 40000}, 2, 1, 1, 6, 1, NULL},
    {"line 40,000 and 65 groups", 1, {0, 40000, 65}, 3, 0, 1, 6, 1, NULL},
    {"literal not below 2N, line 40,000", 1, {2, 40000, 0}, 3, 0, 1, 5, 0, NULL},
    {"second rule, line 40,000", 1, {0, 0, 0, 0, 40000, 0}, 6, 0, 1, 7, 3, NULL},
    {"65 groups", 1, {0, 0, 65}, 3, 0, 1, 6, 2, NULL},
    {"a group of none", 1, {0, 0, 1, 0}, 4, 0, 1, 6, 3, NULL},
    {"a group of 65", 1, {0, 0, 1, 65}, 4, 0, 1, 6, 3, NULL},
    {"second rule", 1, {0, 0, 0, 0, 0, 0}, 6, 0, 1, 7, 3, NULL},
};

static void written_tables(void) {
    uint8_t bytes[66];
    size_t i;
    for (i = 0; i < sizeof table_cases / sizeof *table_cases; i++) {
        const struct table_case *c = &table_cases[i];
        const size_t len = put_words(bytes, c->words, c->count) + c->surplus;
        if (c->surplus) bytes[len - 1] = 7;
        what = c->what;
        check(evaluate(c->n, bytes, len, c->room, c->values) == refusal(c->number, c->place), "another answer");
    }
}

/* Exactly 8,192 words for 512 atoms: a chain back to front whose bodies repeat the atom before; all are t. Then its end is the
 * negation of its beginning, so a conflict shows only when all of it is held. */
static void full_tables(void) {
    static uint8_t bytes[2 * 8194];
    static char values[513];
    uint16_t words[70];
    size_t len = 0, left = 8192 - 3, atom, k, j;
    memset(values, 't', 512);
    for (atom = 511; atom > 0; atom--) {
        k = left / atom - 4;
        words[0] = (uint16_t)(2 * atom);
        words[1] = (uint16_t)atom;
        words[2] = 1;
        words[3] = (uint16_t)k;
        for (j = 0; j < k; j++) words[4 + j] = (uint16_t)(2 * atom - 2);
        len += put_words(bytes + len, words, k + 4);
        left -= k + 4;
    }
    words[0] = words[1] = words[2] = 0;
    len += put_words(bytes + len, words, 3);
    what = "8,192 words";
    check(len == 16384 && left == 0, "the table is not full");
    check(evaluate(512, bytes, len, 512, values) == 0, "another answer");
    check(evaluate(512, bytes, len, 700, values) == 0, "another answer");
    check(evaluate(512, bytes, len, 511, NULL) == refusal(3, 0), "another answer");
    check(evaluate(512, bytes, len + 1, 512, NULL) == refusal(4, 8192), "another answer");
    check(evaluate(512, bytes, len + 2, 512, NULL) == refusal(2, 0), "another answer");
    check(evaluate(513, bytes, len + 2, 512, NULL) == refusal(1, 0), "another answer");
    check(evaluate(512, bytes, len - 1, 512, NULL) == refusal(4, 8191), "another answer");
    put_word(bytes, 0, 1);
    memset(values, 'i', 511);
    values[511] = 'u';
    what = "8,192 words and a conflict";
    check(evaluate(512, bytes, len, 512, values) == 0, "another answer");
}

struct reason_case {
    const char *what;
    uint64_t n;
    uint16_t words[16];
    size_t count, surplus;
    const char *values; /* letters; "?" is 4 */
    const char *text;
    uint64_t number, place;
};

#define B_B 1, {1, 1, 1, 1, 0}, 5, 0
#define FACTS_A_B 2, {0, 1, 0, 2, 2, 0}, 6, 0
#define A_OF_TWO 2, {2, 1, 0, 0, 2, 2, 1, 2, 1, 2}, 10, 0
#define NO_A_OF_A 1, {0, 1, 0, 1, 2, 1, 1, 0}, 8, 0
static const struct reason_case reason_cases[] = {
    {"no rules, N 0", 0, {0}, 0, 0, "", "", 0, 0},
    {"no rules, N 2", 2, {0}, 0, 0, "uu", "", 0, 0},
    {"values past N are not read", 1, {0, 1, 0}, 3, 0, "t???", "0\t0\t0\t0\n", 0, 0},
    {"facts", FACTS_A_B, "tt", "0\t7\t0\t0\n2\t7\t2\t0\n", 0, 0},
    {"a negation", 1, {1, 1, 0}, 3, 0, "f", "1\t1023\t1\t0\n", 0, 0},
    {"two groups alike, the second named", A_OF_TWO, "tt", "0\t1\t0\t2\n2\t0\t2\t0\n", 0, 0},
    {"-b: b, both by its rule", B_B, "i", "0\t0\t1\t1\n1\t1\t1\t1\n", 0, 0},
    {"a by its fact, -a by a", NO_A_OF_A, "i", "0\t0\t0\t0\n1\t1\t1\t1\n", 0, 0},
    {"a leading zero", 0, {0}, 0, 0, "", "00\t0\t0\t0\n", 21, 1},
    {"a fifth digit", 0, {0}, 0, 0, "", "0\t10000\t0\t0\n", 21, 6},
    {"byte 10 alone", 0, {0}, 0, 0, "", "\n", 21, 0},
    {"a tab alone", 0, {0}, 0, 0, "", "\t", 21, 0},
    {"three numbers", 0, {0}, 0, 0, "", "0\t0\t0\n", 21, 5},
    {"five numbers", 0, {0}, 0, 0, "", "0\t0\t0\t0\t0\n", 21, 7},
    {"no number", 0, {0}, 0, 0, "", "0\t\t0\t0\n", 21, 2},
    {"a second line cut short", 0, {0}, 0, 0, "", "0\t0\t0\t0\n0", 21, 9},
    {"N above 512", 513, {0, 1}, 2, 0, "", "x", 1, 0},
    {"fewer values than N", 2, {9}, 1, 0, "t", "x", 3, 0},
    {"a faulty word", 1, {2, 0, 0}, 3, 0, "?", "x", 5, 0},
    {"a lone byte and no value code", 1, {0, 1, 0}, 3, 1, "?", "x", 4, 3},
    {"no value code and a broken text", FACTS_A_B, "t?", "x", 20, 1},
    {"a broken text and no model", FACTS_A_B, "tu", "0\t0\t0\t0\n ", 21, 8},
    {"no model and a line missing", FACTS_A_B, "tu", "", 34, 3},
    {"-b: b, and b is t", B_B, "t", "0\t0\t0\t0\n", 34, 0},
    {"out of order", FACTS_A_B, "tt", "2\t0\t2\t0\n0\t0\t0\t0\n", 22, 1},
    {"missing before not justified", FACTS_A_B, "tt", "0\t0\t0\t5\n", 22, 2},
    {"all missing", FACTS_A_B, "tt", "", 22, 1},
    {"surplus before not justified", FACTS_A_B, "tt", "0\t0\t0\t5\n2\t0\t2\t0\n3\t0\t2\t0\n", 22, 3},
    {"a code not below 2N", 1, {0, 1, 0}, 3, 0, "t", "9999\t0\t0\t0\n", 22, 1},
    {"a group above 64", 1, {0, 1, 0}, 3, 0, "t", "0\t0\t0\t9999\n", 22, 1},
    {"rank 1,024", 1, {0, 1, 0}, 3, 0, "t", "0\t1024\t0\t0\n", 22, 1},
    {"rank 1,024 counts as a number elsewhere", B_B, "i", "0\t1023\t1\t1\n1\t1024\t1\t1\n", 22, 2},
    {"group 0 of a rule with groups", A_OF_TWO, "tt", "0\t1\t0\t0\n2\t0\t2\t0\n", 22, 1},
    {"a third group of two", A_OF_TWO, "tt", "0\t1\t0\t3\n2\t0\t2\t0\n", 22, 1},
    {"equal ranks", A_OF_TWO, "tt", "0\t0\t0\t1\n2\t0\t2\t0\n", 22, 1},
    {"a larger rank", A_OF_TWO, "tt", "0\t0\t0\t1\n2\t9\t2\t0\n", 22, 1},
    {"measured at the head of the rule", B_B, "i", "0\t1\t1\t1\n1\t1\t1\t1\n", 22, 1},
    {"a head without a rule", B_B, "i", "0\t0\t0\t1\n1\t1\t1\t1\n", 22, 1},
    {"a fact of the negation", NO_A_OF_A, "i", "0\t0\t0\t0\n1\t0\t0\t0\n", 22, 2},
    {"a group that is u", 2, {0, 1, 2, 1, 2, 1, 0}, 7, 0, "tu", "0\t0\t0\t1\n", 22, 1},
};

static void written_reasons(void) {
    uint8_t bytes[34], values[8];
    size_t i, k;
    for (i = 0; i < sizeof reason_cases / sizeof *reason_cases; i++) {
        const struct reason_case *c = &reason_cases[i];
        const size_t len = put_words(bytes, c->words, c->count) + c->surplus, values_len = strlen(c->values);
        if (c->surplus) bytes[len - 1] = 7;
        for (k = 0; k < values_len; k++) values[k] = (uint8_t)simmerknot_value_of_letter((uint8_t)c->values[k]);
        what = c->what;
        check(check_sheet(c->n, bytes, len, values, values_len, (const uint8_t *)c->text, strlen(c->text)) == refusal(c->number, c->place),
              "another answer");
    }
}

/* Both literals of 512 atoms are facts, so all are i: 1,024 lines, of which the last may have any rank; and one more. */
static void full_reasons(void) {
    static uint8_t table[6 * MOST_LINES + 2], values[SIMMERKNOT_MOST_ATOMS], text[SIMMERKNOT_REASON_SHEET_BYTES + 99];
    static struct reason row[MOST_LINES + 1];
    static char marked[513];
    size_t i, len;
    what = "1,024 lines";
    memset(values, SIMMERKNOT_I, sizeof values);
    memset(marked, 'i', 512);
    for (i = 0; i <= MOST_LINES; i++) {
        const struct reason line = {(unsigned)i, i < 1000 ? 0 : 1023, (unsigned)i, 0};
        row[i] = line;
        if (i < MOST_LINES) put_word(table, 3 * i, i);
    }
    check(evaluate(512, table, 6 * MOST_LINES, 512, marked) == 0, "all 512 atoms marked is not evaluated");
    len = put_reasons(text, row, MOST_LINES);
    check(check_sheet(512, table, 6 * MOST_LINES, values, 512, text, len) == 0, "another answer");
    check(check_sheet(512, table, 6 * MOST_LINES, values, 512, text, len - 1) == refusal(21, len - 1), "another answer");
    check(check_sheet(512, table, 6 * MOST_LINES + 1, values, 512, text, len) == refusal(4, 3 * MOST_LINES), "another answer");
    what = "1,025 lines";
    len = put_reasons(text, row, MOST_LINES + 1);
    check(check_sheet(512, table, 6 * MOST_LINES, values, 512, text, len) == refusal(22, MOST_LINES + 1), "another answer");
}

/* A reason sheet above 4 GiB, whose lines are one file's, mapped again and again: the whole text is read, and a place that 32 bits do not
 * hold is their largest number. */
static void long_text(void) {
    static const char line[] = "0\t0\t0\t0\n";
    const size_t part = (size_t)1 << 21, parts = ((size_t)1 << 32) / part + 1;
    FILE *file = tmpfile();
    uint8_t *text, *at;
    size_t i;
    what = "a text above 4 GiB";
    check(file != NULL, "no file");
    for (i = 0; i < part; i += sizeof line - 1) check(fwrite(line, 1, sizeof line - 1, file) == sizeof line - 1, "no file");
    check(fflush(file) == 0, "no file");
    text = mmap(NULL, parts * part, PROT_NONE, MAP_PRIVATE | MAP_ANONYMOUS | MAP_NORESERVE, -1, 0);
    check(text != MAP_FAILED, "no addresses");
    for (i = 0, at = text; i < parts; i++, at += part) {
        check(mmap(at, part, PROT_READ, MAP_SHARED | MAP_FIXED, fileno(file), 0) == at, "no addresses");
    }
    check(simmerknot_check_reasons(0, NULL, 0, NULL, 0, text, ((size_t)1 << 32) + 1) == refusal(21, UINT32_MAX), "another answer");
    calls++;
    fclose(file);
}

/* simmerknot_sheet. */

/* The length of the literal, or of the line's name, that starts there. */
static size_t part_len(const uint8_t *text, size_t at, size_t len) {
    size_t end = at;
    while (end < len && text[end] != '\t' && text[end] != ' ' && text[end] != '\n') end++;
    return end - at;
}

/* Every literal of the sheet, read byte by byte, has its name in one line of the value sheet. */
static void check_looked_up(const uint8_t *sheet, size_t sheet_len, const uint8_t *text, size_t text_len) {
    size_t at = 0;
    while (at < sheet_len) {
        const size_t name = at + (sheet[at] == '-'), len = part_len(sheet, name, sheet_len);
        size_t line = 0, found = 0;
        while (line < text_len) {
            const size_t shown = part_len(text, line, text_len);
            found += shown == len && memcmp(text + line, sheet + name, len) == 0;
            line += shown + 3;
        }
        check(found == 1, "a name of the sheet has no line, or two");
        at = name + len + 1;
    }
}

/* The words of an accepted sheet, by its text: 3 for a head, 2 for the first literal of a group, 1 for a further one. */
static size_t words_of(const uint8_t *sheet, size_t len) {
    size_t at, words = 0;
    for (at = 0; at < len; at++) {
        const uint8_t before = at == 0 ? '\n' : sheet[at - 1];
        words += before == '\n' ? 3 : before == '\t' ? 2 : before == ' ' ? 1 : 0;
    }
    return words;
}

/* The code of the literal that starts there, by the name entries. */
static uint32_t code_at(const uint8_t *sheet, size_t at, size_t sheet_len, struct lent n, size_t atoms) {
    const size_t name = at + (sheet[at] == '-'), len = part_len(sheet, name, sheet_len);
    size_t atom;
    for (atom = 0; atom < atoms; atom++) {
        const uint32_t entry = simmerknot_name_entry(n.at, atom);
        if (simmerknot_name_len(entry) == len && memcmp(sheet + simmerknot_name_place(entry), sheet + name, len) == 0) break;
    }
    check(atom < atoms, "a name of the sheet has no entry");
    return (uint32_t)(2 * atom + (sheet[at] == '-'));
}

/* The words of an accepted sheet: one record to a line, with the line of its head, which is what a look-up by head says; no line for
 * a literal that heads no rule; zeros after the last. */
static void check_words(const uint8_t *sheet, size_t sheet_len, struct lent w, struct lent n, size_t atoms) {
    static struct record records[MOST_RECORDS];
    static uint8_t heads[1024];
    const size_t used = simmerknot_words_used(w.at, w.len), found = records_in(w.at, 2 * used, records);
    size_t at, i = 0;
    uint32_t code;
    check(used == words_of(sheet, sheet_len), "other words are used than the sheet has");
    check(used <= 8192, "more than 8,192 words");
    check_zero(w, 2 * used, w.len / 2 * 2, "a word after the last is not zero");
    check(found == lines_of(sheet, sheet_len), "not one record to a line");
    memset(heads, 0, sizeof heads);
    for (at = 0; at < sheet_len; at++) {
        if (at > 0 && sheet[at - 1] != '\n') continue;
        code = code_at(sheet, at, sheet_len, n, atoms);
        heads[code] = 1;
        check(records[i].head == code, "a record of another head");
        check(records[i].line == 1 + lines_of(sheet, at), "a record of another line");
        check(simmerknot_line_of(w.at, w.len, code) == records[i].line, "a head of another line");
        i++;
    }
    for (code = 0; code < 2 * atoms; code++) {
        check(heads[code] || simmerknot_line_of(w.at, w.len, code) == 0, "a line for a literal that heads no rule");
    }
    check(simmerknot_line_of(w.at, w.len, code) == 0, "a line for a literal of no atom");
    check(simmerknot_line_of(w.at, w.len, 65536) == 0, "a line for a code above 65,535");
}

/* What an accepted sheet left: names that stand in the sheet, its words, zeros after both, and a value sheet that says of each name,
 * in atom order, what an evaluation of those very words says. */
static void check_accepted(const uint8_t *sheet, size_t sheet_len, struct lent w, struct lent n, struct lent t, size_t text_len) {
    size_t atoms = 0, i, text = 0;
    while (atoms < n.len / 4 && simmerknot_name_entry(n.at, atoms) != 0) {
        const uint32_t entry = simmerknot_name_entry(n.at, atoms++);
        check(simmerknot_name_len(entry) <= SIMMERKNOT_MOST_NAME_BYTES, "a name entry of more than 24 bytes");
        check(simmerknot_name_place(entry) + simmerknot_name_len(entry) < sheet_len, "a name entry outside the sheet");
    }
    check(atoms <= 512, "more than 512 atoms");
    check_zero(n, 4 * atoms, n.len / 4 * 4, "a name entry after the last is not zero");
    check_words(sheet, sheet_len, w, n, atoms);
    check(evaluate(atoms, w.at, 2 * simmerknot_words_used(w.at, w.len), atoms, NULL) == 0, "the words are no table");
    for (i = 0; i < atoms; i++) {
        const uint32_t entry = simmerknot_name_entry(n.at, i);
        const size_t len = simmerknot_name_len(entry);
        check(text + len + 3 <= text_len, "the value sheet is too short");
        check(memcmp(t.at + text, sheet + simmerknot_name_place(entry), len) == 0, "another name");
        check(t.at[text + len] == '\t' && t.at[text + len + 2] == '\n', "not a line");
        check(t.at[text + len + 1] == valued[i], "another value");
        text += len + 3;
    }
    check(text == text_len, "the value sheet is too long");
    check_looked_up(sheet, sheet_len, t.at, text_len);
}

static uint64_t read_sheet(const uint8_t *sheet, size_t sheet_len, size_t words_len, size_t names_len, size_t text_len) {
    struct lent s = lend_to_read(sheet, sheet_len), w = lend_filled(words_len), n = lend_filled(names_len), t = lend_filled(text_len);
    const uint64_t answer = simmerknot_sheet(s.at, s.len, w.at, w.len, n.at, n.len, t.at, t.len);
    calls++;
    check(s.len == 0 || memcmp(s.at, sheet, sheet_len) == 0, "the sheet was altered");
    check_untouched(w, words_len / 2 * 2, "the byte after the last word was altered");
    check_untouched(n, names_len / 4 * 4, "a byte after the last name entry was altered");
    if (simmerknot_refused(answer)) {
        const uint32_t number = simmerknot_number(answer);
        check(number >= 7 && number <= 15, "a number that the sheet entry does not give");
        check_zero(w, 0, words_len / 2 * 2, "a refusal left a word");
        check_zero(n, 0, names_len / 4 * 4, "a refusal left a name entry");
        check(simmerknot_words_used(w.at, w.len) == 0 && simmerknot_line_of(w.at, w.len, 0) == 0, "words of a refusal");
        check_untouched(t, 0, "a refusal wrote text");
    } else {
        check(answer <= text_len, "longer than the text room");
        check_untouched(t, (size_t)answer, "a byte past the value sheet was altered");
        check_accepted(sheet, sheet_len, w, n, t, (size_t)answer);
    }
    take_back(s);
    take_back(w);
    take_back(n);
    take_back(t);
    return answer;
}

struct sheet_case {
    const char *sheet;
    size_t words_len, names_len, text_len;
    uint64_t number, place; /* 0: accepted, and the place is the value sheet's length */
};

static const struct sheet_case sheet_cases[] = {
    {"", 16384, 2048, 0, 0, 0},
    {"a\n", 16384, 2048, 4, 0, 4},
    {"a\n", 16385, 2049, 4, 0, 4},
    {"a\n", 16387, 2051, 5, 0, 4},
    {"a\n", 16391, 2055, 13824, 0, 4},
    {"a\n", 40001, 5003, 4, 0, 4},
    {"-b\tb\n", 16384, 2048, 4, 0, 4},
    {"a\n-a\n", 16384, 2048, 4, 0, 4},
    {"a\n-a\n", 16384, 2048, 3, 15, 4},
    {"a\n-a\nb\ta\nh\n-h\t-b\ng\th\tk\nk\tg\n", 16384, 2048, 20, 0, 20},
    {"a\tc\nb\nc\n", 16384, 2048, 12, 0, 12},
    {"arrived\tlogged\tmailed\nlogged\n-arrived\tgap\ngap\nscored\tarrived audited\naudited\n", 16384, 2048, 53, 0, 53},
    {"arrived\tlogged\tmailed\nlogged\n-arrived\tgap\ngap\nscored\tarrived audited\naudited\n", 16384, 2048, 52, 15, 53},
    {"arrived\tlogged\tmailed\nlogged\n-arrived\tgap\ngap\nscored\tarrived audited\naudited\n", 16384, 2048, 44, 15, 53},
    {"p\tq -r\n", 16384, 2048, 12, 0, 12},
    {"p\tq -r\n", 16387, 2051, 13, 0, 12},
    {"p\tq -r\n", 16384, 2048, 11, 15, 12},
    {"p\tq -r\n", 16384, 2048, 4, 15, 12},
    {"p\tq -r\n", 16384, 2048, 0, 15, 12},
    {"p\tlonger.than.p\t-q longer.than.p\n", 16384, 2048, 24, 0, 24},
    {"p\tlonger.than.p\t-q longer.than.p\n", 16384, 2048, 23, 15, 24},
    {"p\tlonger.than.p\t-q longer.than.p\n", 16384, 2048, 4, 15, 24},
    {"a\n", 16384, 2048, 3, 15, 4},
    {"a\n", 16384, 2048, 0, 15, 4},
    {"a\n", 16383, 2048, 4, 9, 0},
    {"a\n", 16384, 2047, 4, 9, 0},
    {"a\n", 1, 3, 4, 9, 0},
    {"a\n", 0, 0, 4, 9, 0},
    {"", 16384, 0, 0, 9, 0},
    {"a\na\n", 16384, 2048, 8, 7, 2},
    {"a\n-b\n-b\n", 16384, 2048, 8, 7, 5},
    {"a", 16384, 2048, 4, 10, 1},
    {"a b\n", 16384, 2048, 4, 10, 1},
    {"a\t\n", 16384, 2048, 4, 10, 2},
    {"a\n\n", 16384, 2048, 4, 10, 2},
    {"\xff\n", 16384, 2048, 4, 10, 0},
    {"abcdefghijklmnopqrstuvwx\n", 16384, 2048, 27, 0, 27},
    {"abcdefghijklmnopqrstuvwxy\n", 16384, 2048, 27, 11, 24},
};

static void written_sheets(void) {
    size_t i;
    for (i = 0; i < sizeof sheet_cases / sizeof *sheet_cases; i++) {
        const struct sheet_case *c = &sheet_cases[i];
        what = c->sheet;
        check(read_sheet((const uint8_t *)c->sheet, strlen(c->sheet), c->words_len, c->names_len, c->text_len) ==
                  refusal(c->number, c->place),
              "another answer");
    }
}

/* Both sides of the limits that need a long sheet. */
static void long_sheets(void) {
    static char sheet[70000];
    size_t len, i, at;
    for (i = 0, len = 0; i < 513; i++) {
        at = len;
        len += (size_t)sprintf(sheet + len, "n%lu\n", (unsigned long)i);
        if (i == 511) {
            what = "512 names";
            check(!simmerknot_refused(read_sheet((uint8_t *)sheet, len, 16384, 2048, 13824)), "refused");
        }
    }
    what = "513 names";
    check(read_sheet((uint8_t *)sheet, len, 16384, 2048, 13824) == refusal(12, at), "another answer");
    /* One head, the other names in eight groups of its body. */
    for (i = 0, len = 0; i < 512; i++) {
        len += (size_t)sprintf(sheet + len, "%sn%023lu", i == 0 ? "" : i % 64 == 1 ? "\t" : " ", (unsigned long)i);
    }
    sheet[len++] = '\n';
    what = "512 names of 24 bytes, 511 of them only in bodies";
    check(read_sheet((uint8_t *)sheet, len, 16384, 2048, 13824) == 13824, "another answer");
    check(read_sheet((uint8_t *)sheet, len, 16384, 2048, 13823) == refusal(15, 13824), "another answer");
    check(read_sheet((uint8_t *)sheet, len, 16384, 2048, 27) == refusal(15, 13824), "another answer");
    for (i = 0, len = (size_t)sprintf(sheet, "a"); i < 64; i++) len += (size_t)sprintf(sheet + len, "\tb");
    strcpy(sheet + len, "\n");
    what = "64 groups";
    check(read_sheet((uint8_t *)sheet, len + 1, 16384, 2048, 8) == 8, "another answer");
    check(read_sheet((uint8_t *)sheet, len + 1, 16384, 2048, 4) == refusal(15, 8), "another answer");
    strcpy(sheet + len, "\tb\n");
    what = "65 groups";
    check(read_sheet((uint8_t *)sheet, len + 3, 16384, 2048, 4) == refusal(13, len + 1), "another answer");
    /* Both literals of 512 names head a line of 8 words. */
    for (i = 0, len = 0; i < 1024; i++) {
        len += (size_t)sprintf(sheet + len, "%s%sn%lu\tn0\tn0 n0", i ? "\n" : "", i % 2 ? "-" : "", (unsigned long)(i / 2));
    }
    strcpy(sheet + len, "\n");
    what = "8,192 words, 1,024 heads, 512 names";
    check(words_of((uint8_t *)sheet, len + 1) == 8192, "the sheet is not full");
    check(!simmerknot_refused(read_sheet((uint8_t *)sheet, len + 1, 16384, 2048, 13824)), "refused");
    check(!simmerknot_refused(read_sheet((uint8_t *)sheet, len + 1, 16391, 2048, 13824)), "refused");
    strcpy(sheet + len, " n0\n");
    what = "8,193 words";
    check(read_sheet((uint8_t *)sheet, len + 4, 16384, 2048, 13824) == refusal(14, len + 1), "another answer");
    /* 62 lines of 131 words and one of 67 leave room for a head, or for a literal and a further one in a new group. */
    for (i = 0, len = 0; i < 63; i++) {
        len += (size_t)sprintf(sheet + len, "%sh%lu", i ? "\n" : "", (unsigned long)i);
        for (at = 0; at < (i < 62 ? 64 : 32); at++) len += (size_t)sprintf(sheet + len, "\tb");
    }
    what = "8,189 words and a head";
    check(words_of((uint8_t *)sheet, len) == 8189, "another count");
    strcpy(sheet + len, "\nx\n");
    check(!simmerknot_refused(read_sheet((uint8_t *)sheet, len + 3, 16384, 2048, 13824)), "refused");
    what = "8,191 words and a head";
    strcpy(sheet + len, "\tb\nx\n");
    check(read_sheet((uint8_t *)sheet, len + 5, 16384, 2048, 13824) == refusal(14, len + 3), "another answer");
    what = "8,190 words and a head";
    strcpy(sheet + len, " b\nx\n");
    check(read_sheet((uint8_t *)sheet, len + 5, 16384, 2048, 13824) == refusal(14, len + 3), "another answer");
    what = "8,191 words and the first literal of a group";
    strcpy(sheet + len, "\tb\tb\n");
    check(read_sheet((uint8_t *)sheet, len + 5, 16384, 2048, 13824) == refusal(14, len + 3), "another answer");
    what = "8,191 words and a further literal";
    strcpy(sheet + len, "\tb b\n");
    check(!simmerknot_refused(read_sheet((uint8_t *)sheet, len + 5, 16384, 2048, 13824)), "refused");
    /* 41 lines of up to 64 names of 24 bytes, and one more. */
    for (i = 0, len = 0; i < 41; i++) {
        len += (size_t)sprintf(sheet + len, "h%023lu", (unsigned long)i);
        for (at = 0; at < (i < 40 ? 64 : 20); at++) {
            len += (size_t)sprintf(sheet + len, "%sb%023lu", at ? " " : "\t", (unsigned long)at);
        }
        sheet[len++] = '\n';
    }
    len += (size_t)sprintf(sheet + len, "fact.fact.\n");
    what = "65,536 bytes, accepted";
    check(len == 65536, "the sheet is not full");
    check(!simmerknot_refused(read_sheet((uint8_t *)sheet, len, 16384, 2048, 13824)), "refused");
    memset(sheet, 'a', sizeof sheet);
    what = "65,536 bytes";
    check(read_sheet((uint8_t *)sheet, 65536, 16384, 2048, 0) == refusal(11, 24), "another answer");
    what = "65,537 bytes";
    check(read_sheet((uint8_t *)sheet, 65537, 16384, 2048, 0) == refusal(8, 0), "another answer");
    what = "65,537 bytes and small buffers";
    check(read_sheet((uint8_t *)sheet, 65537, 7, 7, 0) == refusal(8, 0), "another answer");
}

/* Lengths 0 with null pointers, all at once and buffer by buffer. */
static void nulls(void) {
    uint8_t *words = calloc(1, 16384), *names = calloc(1, 2048);
    uint8_t one = 9;
    what = "null pointers";
    check(words && names, "no memory");
    check(simmerknot_evaluate(0, NULL, 0, NULL, 0) == 0, "N 0");
    check(simmerknot_evaluate(1, NULL, 0, NULL, 0) == refusal(3, 0), "N 1");
    check(simmerknot_evaluate(1, NULL, 0, &one, 1) == 0 && one == 1, "no table");
    check(simmerknot_evaluate(0, (const uint8_t *)"\0\0\0", 2, NULL, 0) == refusal(5, 0), "no room");
    check(simmerknot_conflict(0, NULL, 0) == 0 && simmerknot_conflict(512, NULL, 0) == 0, "no conflict in no table");
    check(simmerknot_conflict(513, NULL, 0) == refusal(1, 0), "N above 512, and no table");
    check(simmerknot_reasons(0, NULL, 0, NULL, 0) == 0 && simmerknot_reasons(512, NULL, 0, NULL, 0) == 0, "no reasons");
    check(simmerknot_reasons(513, NULL, 0, NULL, 0) == refusal(1, 0), "N above 512, and no reasons");
    check(simmerknot_reasons(1, (const uint8_t *)"\0\0\0\0\0", 6, NULL, 0) == refusal(15, 8), "no room for a reason");
    check(simmerknot_check_reasons(0, NULL, 0, NULL, 0, NULL, 0) == 0, "nothing to check");
    check(simmerknot_check_reasons(1, NULL, 0, NULL, 0, NULL, 0) == refusal(3, 0), "no values");
    check(simmerknot_check_reasons(1, NULL, 0, &one, 1, NULL, 0) == 0, "one value, u");
    check(simmerknot_check_reasons(1, (const uint8_t *)"\0\0\0\0\0", 6, (const uint8_t *)"\3", 1, NULL, 0) == refusal(22, 1), "no text");
    check(simmerknot_sheet(NULL, 0, NULL, 0, NULL, 0, NULL, 0) == refusal(9, 0), "nothing at all");
    check(simmerknot_sheet(NULL, 0, words, 16384, NULL, 0, NULL, 0) == refusal(9, 0), "no name buffer");
    check(simmerknot_sheet(NULL, 0, NULL, 0, names, 2048, NULL, 0) == refusal(9, 0), "no word buffer");
    check(simmerknot_sheet(NULL, 0, words, 16384, names, 2048, NULL, 0) == 0, "the empty sheet");
    check(simmerknot_sheet((const uint8_t *)"p\n", 2, words, 16384, names, 2048, NULL, 0) == refusal(15, 4), "no text room");
    calls += 20;
    check(simmerknot_words_used(NULL, 0) == 0 && simmerknot_line_of(NULL, 0, 0) == 0, "no words");
    free(words);
    free(names);
}

/* Random calls. */

static void random_tables(unsigned long count) {
    static const uint16_t edges[] = {0, 1, 64, 65, 1023, 1024, 32768, 32769, 65535};
    uint16_t words[40];
    uint8_t bytes[81];
    what = "random tables";
    while (count--) {
        const size_t len = below(41), n = below(5), lone = below(8) == 0;
        size_t i;
        for (i = 0; i < len; i++) words[i] = below(20) ? (uint16_t)below(5) : edges[below(9)];
        put_words(bytes, words, len);
        bytes[2 * len] = (uint8_t)below(256);
        evaluate(n, bytes, 2 * len + lone, n + below(4) - (n && below(8) == 0), NULL);
    }
}

static void random_sheets(unsigned long count) {
    static const char letters[] = "aabbc.0--\t\t  \n\n\n\n";
    uint8_t sheet[60];
    what = "random sheets";
    while (count--) {
        const size_t len = below(sizeof sheet);
        size_t i;
        for (i = 0; i < len; i++) sheet[i] = below(60) ? (uint8_t)letters[below(sizeof letters - 1)] : (uint8_t)below(256);
        if (len && below(8)) sheet[len - 1] = '\n';
        read_sheet(sheet, len, below(8) ? 16384 + below(9) : below(16384), below(8) ? 2048 + below(9) : below(2048), below(60));
    }
}

/* Random sheets of that kind are nearly all refused; these are rules over few names of two bytes, some of which stand only in
 * bodies, so all are accepted if the text room is large enough for the lines of every name. */
static void random_rules(unsigned long count) {
    const unsigned long all = count;
    unsigned long with_others = 0, without_room = 0;
    char sheet[600];
    what = "random rules";
    while (count--) {
        const size_t atoms = 1 + below(6), in_bodies = atoms + below(4), head_from = below(2);
        size_t len = 0, head, name, room, needed = 0, heads = 0;
        uint8_t headed[9] = {0}, met[9] = {0};
        for (head = head_from; head < 2 * atoms; head += 1 + below(2)) {
            size_t groups = below(4);
            headed[head / 2] = met[head / 2] = 1;
            len += (size_t)sprintf(sheet + len, "%sn%lu", head % 2 ? "-" : "", (unsigned long)(head / 2));
            while (groups--) {
                size_t k = 1 + below(3);
                const char *part = "\t";
                while (k--) {
                    name = below(in_bodies);
                    met[name] = 1;
                    len += (size_t)sprintf(sheet + len, "%s%sn%lu", part, below(2) ? "-" : "", (unsigned long)name);
                    part = " ";
                }
            }
            sheet[len++] = '\n';
        }
        for (name = 0; name < in_bodies; name++) {
            needed += 5u * met[name];
            heads += 5u * headed[name];
        }
        room = below(4) ? needed + below(9) : below(2) ? heads : needed - (needed > 0);
        with_others += heads < needed;
        without_room += room < needed;
        check(read_sheet((uint8_t *)sheet, len, 16384, 2048, room) == (room < needed ? refusal(15, needed) : needed), "another answer");
    }
    check(10 * conflicts >= all && quiet >= all && not_asked >= all, "tables with a conflict, without one or refused are rare");
    check(written >= all && forged >= all, "reason sheets, written and forged, are rare");
    check(2 * with_others >= all, "names that stand only in bodies are rare");
    check(10 * without_room >= all, "rooms that are too small are rare");
}

int main(int argc, char **argv) {
    unsigned long count;
    if (argc != 3) return 2;
    placement = strcmp(argv[1], "exact") == 0       ? EXACT
                : strcmp(argv[1], "undefined") == 0 ? UNDEFINED
                : strcmp(argv[1], "before") == 0    ? BEFORE
                                                    : AFTER;
    count = strtoul(argv[2], NULL, 10);
    if (strcmp(argv[1], "long") == 0) {
        long_text();
        printf("%lu\n", calls);
        return 0;
    }
    nulls();
    written_tables();
    full_tables();
    written_reasons();
    full_reasons();
    written_sheets();
    long_sheets();
    any_words(count);
    random_tables(count);
    random_sheets(count);
    random_rules(count);
    printf("%lu\n", calls);
    return 0;
}
