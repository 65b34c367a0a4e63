/* How many bytes of stack each call takes on a full input: a thread's stack is painted, and what was touched below the caller's frame is
   counted.
   gcc -O2 -Iinclude tests/stack.c crates/simmerknot/out/libsimmerknot.a -lpthread -o /tmp/stack && /tmp/stack */
#include <pthread.h>
#include <simmerknot.h>
#include <stdio.h>
#include <string.h>

enum { STACK = 1 << 20 };
static uint8_t stack[STACK] __attribute__((aligned(4096)));
static uint8_t table[6144], values[512], words[SIMMERKNOT_WORD_BUFFER_BYTES], names[SIMMERKNOT_NAME_BUFFER_BYTES];
static uint8_t text[SIMMERKNOT_VALUE_SHEET_BYTES], reasons[SIMMERKNOT_REASON_SHEET_BYTES];
static char sheet[8192];
static size_t table_len, sheet_len, reasons_len;
static uint64_t answer;
static uint8_t *frame; /* of the caller */

static void *evaluates(void *unused) {
    frame = __builtin_frame_address(0);
    answer = simmerknot_evaluate(512, table, table_len, values, sizeof values);
    return unused;
}

static void *asks(void *unused) {
    frame = __builtin_frame_address(0);
    answer = simmerknot_conflict(512, table, table_len);
    return unused;
}

static void *writes(void *unused) {
    frame = __builtin_frame_address(0);
    answer = simmerknot_reasons(512, table, table_len, reasons, sizeof reasons);
    return unused;
}

static void *checks(void *unused) {
    frame = __builtin_frame_address(0);
    answer = simmerknot_check_reasons(512, table, table_len, values, sizeof values, reasons, reasons_len);
    return unused;
}

static void *reads(void *unused) {
    frame = __builtin_frame_address(0);
    answer = simmerknot_sheet((uint8_t *)sheet, sheet_len, words, sizeof words, names, sizeof names, text, sizeof text);
    return unused;
}

static size_t touched(void *(*call)(void *)) {
    pthread_t t;
    pthread_attr_t a;
    size_t i = 0;
    call(NULL); /* what a first call makes the dynamic linker take is not the call's own */
    memset(stack, 0xA5, sizeof stack);
    pthread_attr_init(&a);
    pthread_attr_setstack(&a, stack, sizeof stack);
    pthread_create(&t, &a, call, NULL);
    pthread_join(t, NULL);
    while (i < sizeof stack && stack[i] == 0xA5) i++;
    return (size_t)(frame - stack) - i;
}

int main(void) {
    size_t evaluation, asking, writing, checking, reading;
    int i;
    /* 1,024 facts, both literals of each atom, as a table and as a sheet */
    for (i = 0; i < 1024; i++) {
        table[table_len++] = (uint8_t)(i % 256);
        table[table_len++] = (uint8_t)(i / 256);
        table[table_len++] = (uint8_t)((i + 1) % 256);
        table[table_len++] = (uint8_t)((i + 1) / 256);
        table[table_len++] = 0;
        table[table_len++] = 0;
        sheet_len += (size_t)sprintf(sheet + sheet_len, "%sa%d\n", i % 2 ? "-" : "", i / 2);
    }
    evaluation = touched(evaluates);
    if (answer != 0) return 1;
    asking = touched(asks);
    if (answer != SIMMERKNOT_CONFLICT) return 1;
    writing = touched(writes);
    if (simmerknot_refused(answer)) return 1;
    reasons_len = (size_t)answer;
    checking = touched(checks);
    if (answer != 0) return 1;
    reading = touched(reads);
    if (simmerknot_refused(answer)) return 1;
    printf("evaluate %zu\nconflict %zu\nreasons %zu\ncheck_reasons %zu\nsheet %zu\n", evaluation, asking, writing, checking, reading);
    return 0;
}
