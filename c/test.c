/* The wrappers of tapmallet.h, with right and with wrong calls; its sizes, each met and passed by one; then a file of many texts from standard input (docs/GLUE.md), for each of which is printed
   what tapcheck or taprun prints. All texts are answered in a thread that has no more stack than the header says is enough. */
#define _POSIX_C_SOURCE 200809L
#include "tapmallet.h"

#include <inttypes.h>
#include <pthread.h>
#include <stdio.h>
#include <stdlib.h>

static int faults = 0;

static void holds(int test, const char *what)
{
    if (!test) {
        fprintf(stderr, "c/test: not so: %s\n", what);
        faults++;
    }
}

/* ---- the wrappers */

static void right_checks(void)
{
    struct tapmallet_answer answer = {99, 99};
    static const char glue[] = "ret=int\nreturn=v0\n";

    holds(tapmallet_check_text(glue, sizeof glue - 1, &answer) == 0 && answer.number == 4 && answer.line == 2, "a refused text is 4 at line 2");
    holds(tapmallet_check_text("ret=int\nreturn=0\n", 17, &answer) == 0 && answer.number == 0 && answer.line == 0, "an accepted text is 0 at line 0");
    holds(tapmallet_check_text(NULL, 0, &answer) == 0 && answer.number == 2 && answer.line == 1, "no bytes are 2 at line 1");
}

static void wrong_checks(void)
{
    struct tapmallet_answer answer = {99, 98};

    holds(tapmallet_check_text(NULL, 1, &answer) == -1, "a null text with a length is a wrong call");
    holds(tapmallet_check_text("", (size_t)PTRDIFF_MAX + 1, &answer) == -1, "a length that no object has is a wrong call");
    holds(tapmallet_check_text("", 0, NULL) == -1, "a null answer is a wrong call");
    holds(answer.number == 99 && answer.line == 98, "a wrong call writes nothing");
}

static void right_runs(void)
{
    static const char joined[] = "ret=int\nreturn=7\nrun=5\n";
    static const char want[] = "answer=0\nline=0\nstate=done\nsteps=1\nvalue=c7\n";
    union {
        char text[200];
        unsigned char out[200];
    } both = {{0}};
    unsigned char out[200];
    size_t printed = 0;

    memset(out, 1, sizeof out);
    holds(tapmallet_run_text(joined, sizeof joined - 1, out, sizeof out, &printed) == 0, "a run with room enough");
    holds(printed == sizeof want - 1 && memcmp(out, want, printed) == 0, "what is printed");
    holds(out[printed] == 0 && out[127] == 0 && out[128] == 1, "zeros follow up to 128 bytes, and nothing after them is written");

    memcpy(both.text, joined, sizeof joined);
    holds(tapmallet_run_text(both.text, sizeof joined - 1, both.out, TAPMALLET_PRINTED_BYTES, &printed) == 0, "a run whose text is written over");
    holds(printed == sizeof want - 1 && memcmp(both.out, want, printed) == 0, "what is printed over its text");
}

static void wrong_runs(void)
{
    unsigned char out[TAPMALLET_PRINTED_BYTES] = {1};
    size_t printed = 98;

    holds(tapmallet_run_text("", 0, out, sizeof out - 1, &printed) == -1, "too little room is a wrong call");
    holds(tapmallet_run_text("", 0, NULL, sizeof out, &printed) == -1, "nowhere to print to is a wrong call");
    holds(tapmallet_run_text("", 0, out, sizeof out, NULL) == -1, "nowhere to count to is a wrong call");
    holds(tapmallet_run_text(NULL, 1, out, sizeof out, &printed) == -1, "a null text with a length is a wrong call to run");
    holds(out[0] == 1 && printed == 98, "a wrong run writes nothing");
}

/* ---- the sizes: a text that meets one is not refused for it, and one more is */

static char written[100000];
static size_t bytes;

static void begin(const char *words)
{
    bytes = strlen(words);
    memcpy(written, words, bytes);
}

static void repeat(size_t count, const char *words)
{
    size_t length = strlen(words);

    for (; count > 0; count--) {
        memcpy(written + bytes, words, length);
        bytes += length;
    }
}

static void then(const char *words)
{
    repeat(1, words);
}

/* The number that taprun prints of what is written: a glue text that is accepted without a store is 22. */
static int answer_of_written(void)
{
    char out[TAPMALLET_PRINTED_BYTES];
    size_t printed = 0;
    int number = -1;

    holds(tapmallet_run_text(written, bytes, out, sizeof out, &printed) == 0, "a text of a size is run");
    holds(sscanf(out, "answer=%d", &number) == 1, "a text of a size is answered");
    return number;
}

/* A text with `met` times the words in its middle, and the same with one more. */
static void size_is(size_t met, const char *before, const char *words, const char *after, int passed, const char *what)
{
    size_t count;

    for (count = met; count <= met + 1; count++) {
        begin(before);
        repeat(count, words);
        then(after);
        holds((answer_of_written() == passed) == (count > met), what);
    }
}

static void sizes_of_glue(void)
{
    holds(TAPMALLET_FIELDS % 32 == 0 && TAPMALLET_NODES % 8 == 0 && TAPMALLET_CELLS % 8 == 0, "sizes that the lines below fill exactly");
    size_is(TAPMALLET_GLUE_BYTES, "", "x", "", 1, "bytes of a glue text");
    size_is(TAPMALLET_ROWS, "ret=int\n", "type=0:\n", "return=0\n", 3, "rows");
    size_is(TAPMALLET_PRODUCTS_A_ROW - 1, "ret=int\ntype=0:0", "|0", "\nreturn=0\n", 3, "products of a row");
    size_is(TAPMALLET_FIELDS_A_PRODUCT - 1, "ret=int\ntype=0:0", ",0", "\nreturn=0\n", 3, "fields of a product");
    size_is(TAPMALLET_VARIABLES, "ret=int\n", "local=int 0\n", "return=0\n", 3, "variables");
    size_is(TAPMALLET_LABELS, "ret=int\n", "label=\n", "return=0\n", 3, "labels");
    size_is(TAPMALLET_BODY_LINES - 1, "ret=int\nlocal=int 0\n", "set=v0 0\n", "return=0\n", 3, "body lines");
    size_is(TAPMALLET_DEPTH - 1, "ret=int\nreturn=", "int ", "0\n", 3, "depth");
}

/* 32 fields a row, and one more in the second text. */
static void fields_of_all_rows(void)
{
    size_t more;

    for (more = 0; more <= 1; more++) {
        begin("ret=int\n");
        repeat(TAPMALLET_FIELDS / 32, "type=0:0,0,0,0,0,0,0,0|0,0,0,0,0,0,0,0|0,0,0,0,0,0,0,0|0,0,0,0,0,0,0,0\n");
        repeat(more, "type=0:0\n");
        then("return=0\n");
        holds((answer_of_written() == 3) == (more == 1), "fields");
    }
}

/* 8 nodes a line, and 9 in the last line of the second text. */
static void nodes_of_all_lines(void)
{
    size_t more;

    for (more = 0; more <= 1; more++) {
        begin("ret=int\nlocal=int 0\n");
        repeat(TAPMALLET_NODES / 8 - 1, "set=v0 int add 0 add 0 add 0 0\n");
        then("return=int ");
        repeat(more, "int ");
        then("add 0 add 0 add 0 0\n");
        holds((answer_of_written() == 3) == (more == 1), "nodes");
    }
}

static void sizes_of_store(void)
{
    static const char glue[] = "ret=int\ntype=inf:\ntype=0:0\nreturn=0\n";
    static const char eight[] = "ret=int\ntype=inf:\ntype=0:0,0,0,0,0,0,0,0\nreturn=0\nrun=1\n";
    char line[64];
    size_t more;

    size_is(TAPMALLET_STORE_BYTES - 4, "ret=int\nreturn=0\nrun=", "x", "", 21, "bytes of a store text");
    for (more = 0; more <= 1; more++) {
        begin(glue);
        snprintf(line, sizeof line, "run=%zu\n", TAPMALLET_BUDGET + more);
        then(line);
        holds((answer_of_written() == 23) == (more == 1), "budget");
    }
    size_is(TAPMALLET_BLOCKS, "ret=int\ntype=inf:\ntype=0:0\nreturn=0\nrun=1\n", "block=1 0 i0\n", "", 23, "blocks");
    for (more = 0; more <= 1; more++) {
        begin(eight);
        repeat(TAPMALLET_CELLS / 8 - 1, "block=1 0 i0 i0 i0 i0 i0 i0 i0 i0\n");
        then(more == 0 ? "block=1 0 i0 i0 i0 i0 i0 i0 i0 i0\n" : "block=1 0 i0 i0 i0 i0 i0 i0 i0 i0 i0\n");
        holds((answer_of_written() == 23) == (more == 1), "cells");
    }
}

/* ---- many texts */

static void print_check(const char *text, size_t length)
{
    struct tapmallet_answer answer = {0, 0};

    holds(tapmallet_check_text(text, length, &answer) == 0, "a text is checked");
    printf("answer=%" PRIu32 "\nline=%" PRIu64 "\n", answer.number, answer.line);
}

static void print_run(const char *text, size_t length)
{
    char out[TAPMALLET_PRINTED_BYTES];
    size_t printed = 0;

    holds(tapmallet_run_text(text, length, out, sizeof out, &printed) == 0, "a text is run");
    fwrite(out, 1, printed, stdout);
}

/* A text and its header; 0 at the end of the file. */
static int one_text(void)
{
    char program[6];
    size_t length;
    char *text;
    int got = scanf("%5s %zu", program, &length);

    if (got == EOF)
        return 0;
    text = got == 2 && getchar() == '\n' ? malloc(length > 0 ? length : 1) : NULL;
    if (text == NULL || fread(text, 1, length, stdin) != length) {
        fprintf(stderr, "c/test: the file of many texts is misshapen\n");
        exit(2);
    }
    if (strcmp(program, "run") == 0)
        print_run(text, length);
    else
        print_check(text, length);
    free(text);
    return 1;
}

static void *all_tests(void *none)
{
    right_checks();
    wrong_checks();
    right_runs();
    wrong_runs();
    sizes_of_glue();
    fields_of_all_rows();
    nodes_of_all_lines();
    sizes_of_store();
    while (one_text())
        ;
    return none;
}

int main(void)
{
    pthread_attr_t attributes;
    pthread_t thread;

    if (pthread_attr_init(&attributes) != 0 || pthread_attr_setstacksize(&attributes, TAPMALLET_STACK_BYTES) != 0 ||
        pthread_create(&thread, &attributes, all_tests, NULL) != 0 || pthread_join(thread, NULL) != 0) {
        fprintf(stderr, "c/test: no thread\n");
        return 2;
    }
    return faults == 0 ? 0 : 1;
}
