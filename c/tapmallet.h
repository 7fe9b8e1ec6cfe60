/* tapmallet.h: the proved checker and stepper for C and C++.

   `.ci/build library` writes target/staticlib/libexport.a, x86-64 code with no state of its own that calls nothing but memcpy and memset:
       cc -I c yours.c target/staticlib/libexport.a

   Call the two wrappers at the end of this file: they test what the library needs. What is proved is proved of the library's functions, for every text;
   the wrappers and the calling convention are run and compared (c/test.c). docs/ANSWERS.md has the words of each answer, docs/GLUE.md the two formats. */
#ifndef TAPMALLET_H
#define TAPMALLET_H

#include <stddef.h>
#include <stdint.h>
#include <string.h>

#ifdef __cplusplus
extern "C" {
#endif

/* Sizes. A text that passes one of them is not an error of the caller: it is answered with 1 or 3, a store with 21 or 23. */
enum {
    TAPMALLET_GLUE_BYTES = 32768,
    TAPMALLET_ROWS = 64,
    TAPMALLET_PRODUCTS_A_ROW = 16,
    TAPMALLET_FIELDS_A_PRODUCT = 16,
    TAPMALLET_FIELDS = 1024,
    TAPMALLET_VARIABLES = 32,
    TAPMALLET_LABELS = 64,
    TAPMALLET_BODY_LINES = 512,
    TAPMALLET_NODES = 4096,
    TAPMALLET_DEPTH = 16,
    TAPMALLET_STORE_BYTES = 16384,
    TAPMALLET_BUDGET = 1000000,
    TAPMALLET_BLOCKS = 256,
    TAPMALLET_CELLS = 2048,

    /* More than this of a joined text need not be read: its first 49,153 bytes decide the answer. Of a glue text alone the first 32,769 do. */
    TAPMALLET_JOINED_BYTES = 49153,
    /* What tapmallet_run writes to. */
    TAPMALLET_PRINTED_BYTES = 128,
    /* Stack that is enough for a call. The tables live there and nowhere else, so calls in several threads do not meet. */
    TAPMALLET_STACK_BYTES = 524288
};

/* ---- the library's functions

   Each needs: `text` is not null, also where `length` is 0; `length` bytes may be read there; no other thread writes to them during the call;
   what is written to lies outside them. */

/* The answer to a glue text: 0 if it is accepted, else 1 to 13. `*line` is its line, counted from 1; 0 for the answers 0 and 1.
   Both are those of the written rules for every text. `line` is not null. Nothing else is written to. */
uint32_t tapmallet_check(const uint8_t *text, size_t length, uint64_t *line);

/* A glue text and a store text joined, the store from the first line on that begins with `run=`. What taprun prints of them, for every text, is written
   to the start of `out`, which has 128 bytes, with zero bytes after it; the result is how many bytes were printed. They are the five lines
       answer=N  line=N  state=done|running|none  steps=N  value=cN|iN|bN|none
   At most as many steps are run as the store's budget says, so every call ends. */
size_t tapmallet_run(const uint8_t *text, size_t length, uint8_t *out);

/* ---- the wrappers

   0, or -1 where the call is wrong and nothing was written: a null pointer (for `text` it is allowed where `length` is 0), a length that no object has,
   less room than TAPMALLET_PRINTED_BYTES. `out` and `answer` may lie where they like, also inside the text. */

struct tapmallet_answer {
    uint32_t number;
    uint64_t line;
};

static inline int tapmallet_is_text(const void *text, size_t length)
{
    return length <= PTRDIFF_MAX && (text != NULL || length == 0);
}

/* Somewhere to point to for a text without bytes. */
static inline const uint8_t *tapmallet_bytes(const void *text)
{
    return (const uint8_t *)(text != NULL ? text : "");
}

static inline int tapmallet_check_text(const void *text, size_t length, struct tapmallet_answer *answer)
{
    uint64_t line = 0;
    uint32_t number;

    if (answer == NULL || !tapmallet_is_text(text, length))
        return -1;
    number = tapmallet_check(tapmallet_bytes(text), length, &line);
    answer->number = number;
    answer->line = line;
    return 0;
}

/* `*printed` becomes how many bytes were printed. */
static inline int tapmallet_run_text(const void *text, size_t length, void *out, size_t room, size_t *printed)
{
    uint8_t bytes[TAPMALLET_PRINTED_BYTES];
    size_t count;

    if (out == NULL || printed == NULL || room < sizeof bytes || !tapmallet_is_text(text, length))
        return -1;
    count = tapmallet_run(tapmallet_bytes(text), length, bytes);
    memcpy(out, bytes, sizeof bytes);
    *printed = count;
    return 0;
}

#ifdef __cplusplus
}
#endif

#endif
