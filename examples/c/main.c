/* Judges document 01's circuit Q with its three tests, from C, and calls every function of the library, each on a thread whose stack has the
 * size that genduwal.h states. What it prints is in the file expected, worked out from document 01. */
#ifndef _POSIX_C_SOURCE
#define _POSIX_C_SOURCE 200809L
#endif
#include "example.h"

#include <pthread.h>
#include <stdio.h>
#include <stdlib.h>
#include <string.h>

/* Q: net 2 is AND of inputs 0 and 1, net 3 is OR of nets 2 and 1, and net 3 is the output. */
const uint8_t circuit[circuit_bytes] = {
    0x4E, 0x4C, 2, 0, 2, 0, 1, 0,       /* 2 inputs, 2 gates, 1 output */
    0x47, 0x54, 3, 2, 0, 0, 1, 0,       /* AND of nets 0 and 1 */
    0x47, 0x54, 5, 2, 2, 0, 1, 0,       /* OR of nets 2 and 1 */
    0x4F, 0x55, 3, 0,                   /* output: net 3 */
};

/* Three test records of four bytes: mark, V1, V2. */
enum { record_bytes = 4, records = 3 };
static const uint8_t tests[records * record_bytes] = {
    0x54, 0x50, 2, 3,
    0x54, 0x50, 3, 1,
    0x54, 0x50, 0, 2,
};

uint64_t store[GENDUWAL_STORE_WORDS];
static uint64_t work[GENDUWAL_WORK_WORDS];
static uint8_t report[GENDUWAL_REPORT_BYTES];
static size_t report_length;

/* What a thread of this program needs besides the stack of a call: 16,384 bytes, the least that glibc on x86-64 makes a thread with
 * (PTHREAD_STACK_MIN), hold the thread's own record and what printf uses. */
enum { own_stack = 16384 };

static void *on_thread(void *show)
{
    (*(void (**)(void))show)();
    return NULL;
}

/* Runs a part of the example on a thread whose stack is as large as genduwal.h states for its calls, and own_stack. */
static void with_stack(void (*show)(void), size_t call_stack)
{
    pthread_attr_t attributes;
    pthread_t thread;
    if (pthread_attr_init(&attributes) != 0 || pthread_attr_setstacksize(&attributes, call_stack + own_stack) != 0
        || pthread_create(&thread, &attributes, on_thread, &show) != 0 || pthread_join(thread, NULL) != 0) {
        printf("no thread with %u bytes of stack\n", (unsigned)(call_stack + own_stack));
        exit(1);
    }
    pthread_attr_destroy(&attributes);
}

/* The inputs count 1 each, the AND 1 + 1 = 2, the OR 2 + 1 = 3, which is the output's and so the total. */
static void show_survey(void)
{
    uint64_t answer[GENDUWAL_SURVEY_WORDS];
    uint32_t code = genduwal_survey(circuit, sizeof circuit, answer);
    if (code != 0) {
        printf("survey refused %u\n", (unsigned)code);
        return;
    }
    printf("inputs %llu gates %llu outputs %llu paths %llu\n", (unsigned long long)answer[0], (unsigned long long)answer[1],
           (unsigned long long)answer[2], (unsigned long long)answer[3]);
    printf("counts %llu %llu %llu %llu\n", (unsigned long long)answer[4], (unsigned long long)answer[5], (unsigned long long)answer[6],
           (unsigned long long)answer[7]);
}

static void show_empty(void)
{
    printf("empty %u\n", (unsigned)genduwal_empty(store, GENDUWAL_STORE_WORDS));
}

/* The first test detects nothing. The second detects faults 4 and 6: paths 2 and 3, falling. The third detects fault 5: path 3, rising.
 * So the new faults are 0 0, then 0 2, then 1 0, and those held add up to 1 rising and 2 falling. */
static void show_tests(void)
{
    for (unsigned place = 0; place < records; place++) {
        uint64_t answer[4];
        uint32_t code = genduwal_test(circuit, sizeof circuit, tests + place * record_bytes, record_bytes, GENDUWAL_NON_ROBUST, store,
                                      GENDUWAL_STORE_WORDS, work, GENDUWAL_WORK_WORDS, answer);
        if (code != 0)
            printf("test %u refused %u\n", place + 1, (unsigned)code);
        else
            printf("test %u new %llu %llu held %llu %llu\n", place + 1, (unsigned long long)answer[0], (unsigned long long)answer[1],
                   (unsigned long long)answer[2], (unsigned long long)answer[3]);
    }
}

/* What the three tests leave: one rising fault, two falling ones. */
static void show_totals(void)
{
    uint64_t answer[2];
    uint32_t code = genduwal_totals(circuit, sizeof circuit, store, GENDUWAL_STORE_WORDS, answer);
    if (code != 0) {
        printf("totals refused %u\n", (unsigned)code);
        return;
    }
    printf("rising %llu falling %llu\n", (unsigned long long)answer[0], (unsigned long long)answer[1]);
}

/* Coverage by length, a line for each length that is not all zeros: paths for each edge, then faults held for each. Path 3 goes through the OR
 * alone, and both of its faults are held; paths 1 and 2 go through the AND and the OR, and only the falling fault of path 2 is held. */
static void show_lengths(void)
{
    static uint64_t answer[GENDUWAL_LENGTHS_WORDS];
    const uint64_t *rising = answer;
    const uint64_t *falling = answer + 2 * GENDUWAL_LENGTHS;
    uint32_t code = genduwal_lengths(circuit, sizeof circuit, store, GENDUWAL_STORE_WORDS, answer);
    if (code != 0) {
        printf("lengths refused %u\n", (unsigned)code);
        return;
    }
    for (size_t i = 0; i < GENDUWAL_LENGTHS; i++) {
        const uint64_t *up = rising + GENDUWAL_LENGTHS;
        const uint64_t *down = falling + GENDUWAL_LENGTHS;
        if (rising[i] != 0 || falling[i] != 0 || up[i] != 0 || down[i] != 0)
            printf("length %u paths %llu %llu held %llu %llu\n", (unsigned)i, (unsigned long long)rising[i], (unsigned long long)falling[i],
                   (unsigned long long)up[i], (unsigned long long)down[i]);
    }
}

/* All 12 pairs of unlike vectors detect no more than the three tests. A rising or falling input 0 would have to pass the AND, with input 1
 * at 1, and the OR, with input 1 at 0; a rising input 1 makes the OR's other pin 1. The report is written before, since the store is emptied. */
static void show_exhaust(void)
{
    uint64_t answer[2];
    uint32_t code = genduwal_exhaust(circuit, sizeof circuit, GENDUWAL_NON_ROBUST, store, GENDUWAL_STORE_WORDS, work, GENDUWAL_WORK_WORDS,
                                     answer);
    if (code != 0)
        printf("all pairs refused %u\n", (unsigned)code);
    else
        printf("all %llu pairs rising %llu falling %llu\n", (unsigned long long)store[2], (unsigned long long)answer[0],
               (unsigned long long)answer[1]);
}

/* Three tests taken, one rising run, 3 to 3, and one falling run, 2 to 3: the record has 34 + 16 + 16 = 66 bytes. */
static void show_report(void)
{
    uint64_t answer[1];
    uint32_t code = genduwal_write_report(circuit, sizeof circuit, store, GENDUWAL_STORE_WORDS, report, sizeof report, answer);
    if (code != 0) {
        printf("report refused %u\n", (unsigned)code);
        return;
    }
    printf("report %llu bytes\n", (unsigned long long)answer[0]);
    report_length = (size_t)answer[0];
}

/* The report that was written is accepted. It is accepted in class 2, too. The second test: the AND's other pin is steady at 1, and both pins
 * of the OR fall to 0. The third: net 2 is steady at 0 while input 1 rises. There is no class 3: refused 83. With 4 in the place of its 3 tests
 * the report differs in that byte alone: refused 72. */
static void judge(uint32_t test_class)
{
    uint32_t code = genduwal_audit(circuit, sizeof circuit, tests, sizeof tests, report, report_length, test_class, store,
                                   GENDUWAL_STORE_WORDS, work, GENDUWAL_WORK_WORDS);
    if (code != 0)
        printf("audit refused %u\n", (unsigned)code);
    else
        printf("audit accepted\n");
}

static void show_audit(void)
{
    judge(GENDUWAL_NON_ROBUST);
    judge(GENDUWAL_ROBUST);
    judge(3);
    report[2] = 4;
    judge(GENDUWAL_NON_ROBUST);
    report[2] = 3;
}

/* One piece of a test file: the code, after a line with the number of its records, all taken, or the number of the refusal. */
static uint32_t show_piece(const uint8_t *piece, size_t length)
{
    uint64_t answer[1];
    uint32_t code = genduwal_audit_piece(circuit, sizeof circuit, piece, length, GENDUWAL_NON_ROBUST, store, GENDUWAL_STORE_WORDS, work,
                                         GENDUWAL_WORK_WORDS, answer);
    if (code != 0)
        printf("piece of %u bytes refused %u\n", (unsigned)length, (unsigned)code);
    else
        printf("piece of %u bytes taken %llu\n", (unsigned)length, (unsigned long long)answer[0]);
    return code;
}

/* The audit with the test file in pieces of two records; the last piece is what is left. The three tests make a piece of 8 bytes with two
 * records and one of 4 bytes with one, and their report is accepted. With 5 in the mark of the first record the first piece is refused 31,
 * the second is not handed over but counted; 12 bytes are whole records, so the end answers 31. With 4 tests in the report it answers 72. */
static void judge_pieces(const uint8_t *file, size_t file_length)
{
    const size_t most = 2 * record_bytes;
    uint64_t bytes = 0;
    uint32_t first = 0;
    uint32_t code = genduwal_audit_begin(circuit, sizeof circuit, GENDUWAL_NON_ROBUST, store, GENDUWAL_STORE_WORDS, work,
                                         GENDUWAL_WORK_WORDS);
    if (code == 0) {
        for (size_t at = 0; at < file_length; at += most) {
            size_t piece_length = file_length - at < most ? file_length - at : most;
            if (first == 0)
                first = show_piece(file + at, piece_length);
            bytes += piece_length;
        }
        code = genduwal_audit_end(circuit, sizeof circuit, bytes, first, report, report_length, store, GENDUWAL_STORE_WORDS);
    }
    if (code != 0)
        printf("audit in pieces refused %u\n", (unsigned)code);
    else
        printf("audit in pieces accepted\n");
}

static void show_pieces(void)
{
    uint8_t other_mark[sizeof tests];
    memcpy(other_mark, tests, sizeof tests);
    other_mark[0] = 5;
    judge_pieces(tests, sizeof tests);
    judge_pieces(other_mark, sizeof other_mark);
    report[2] = 4;
    judge_pieces(tests, sizeof tests);
    report[2] = 3;
}

/* Q as .bench text: the inputs a and b are nets 0 and 1, the gates c and y nets 2 and 3, so that the netlist file is Q's 28 bytes. The second
 * text uses a name that no line before defines: refused 81. */
static void convert(const char *text)
{
    static uint8_t netlist[GENDUWAL_NETLIST_BYTES];
    uint64_t answer[1];
    uint32_t code = genduwal_bench_to_netlist((const uint8_t *)text, strlen(text), netlist, sizeof netlist, answer);
    if (code != 0)
        printf("text refused %u\n", (unsigned)code);
    else
        printf("text %llu bytes, %s\n", (unsigned long long)answer[0],
               answer[0] == sizeof circuit && memcmp(netlist, circuit, sizeof circuit) == 0 ? "Q" : "another circuit");
}

static void show_texts(void)
{
    convert("INPUT(a)\nINPUT(b)\nOUTPUT(y)\nc = AND(a, b)\ny = OR(c, b)\n");
    convert("INPUT(a)\nOUTPUT(y)\ny = OR(c, a)\n");
}

/* Two vectors of a load for 3 inputs, from seed 1: the state goes on from call to call. A vector has 6 records of 4 bytes; the first is printed. */
static void show_load(void)
{
    static uint8_t load[GENDUWAL_LOAD_BYTES];
    uint64_t answer[2] = {1, 0};
    for (int vector = 1; vector <= 2; vector++) {
        uint32_t code = genduwal_load((uint32_t)answer[0], 3, load, sizeof load, answer);
        if (code != 0) {
            printf("load refused %u\n", (unsigned)code);
            return;
        }
        printf("load %d state %llu bytes %llu first %02X %02X %02X %02X\n", vector, (unsigned long long)answer[0], (unsigned long long)answer[1],
               load[0], load[1], load[2], load[3]);
    }
    printf("load of 65 inputs refused %u\n", (unsigned)genduwal_load(1, 65, load, sizeof load, answer));
}

int main(void)
{
    with_stack(show_survey, GENDUWAL_STACK_BYTES);
    with_stack(show_empty, GENDUWAL_STACK_BYTES);
    with_stack(show_tests, GENDUWAL_STACK_BYTES);
    with_stack(show_totals, GENDUWAL_STACK_BYTES);
    with_stack(show_lengths, GENDUWAL_LENGTHS_STACK_BYTES);
    with_stack(show_numbers, GENDUWAL_STACK_BYTES);
    with_stack(show_faults, GENDUWAL_STACK_BYTES);
    with_stack(show_viewer_totals, GENDUWAL_VIEWER_STACK_BYTES);
    with_stack(show_viewer_faults, GENDUWAL_STACK_BYTES);
    with_stack(show_viewer_runs, GENDUWAL_VIEWER_STACK_BYTES);
    with_stack(show_report, GENDUWAL_STACK_BYTES);
    with_stack(show_exhaust, GENDUWAL_AUDIT_STACK_BYTES);
    with_stack(show_audit, GENDUWAL_AUDIT_STACK_BYTES);
    with_stack(show_pieces, GENDUWAL_AUDIT_STACK_BYTES);
    with_stack(show_path, GENDUWAL_PATH_STACK_BYTES);
    with_stack(show_texts, GENDUWAL_STACK_BYTES);
    with_stack(show_load, GENDUWAL_STACK_BYTES);
    with_stack(show_tree, GENDUWAL_STACK_BYTES);
    with_stack(show_tree_numbers, GENDUWAL_STACK_BYTES);
    with_stack(show_tree_changes, GENDUWAL_STACK_BYTES);
    return 0;
}
