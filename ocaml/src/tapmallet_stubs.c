/* The calls of the proved library for OCaml: a string in, plain data out. No OCaml memory moves during a call, since nothing is allocated in it. */
#include "tapmallet.h"

#define CAML_NAME_SPACE
#include <caml/alloc.h>
#include <caml/fail.h>
#include <caml/memory.h>
#include <caml/mlvalues.h>

value tapmallet_ocaml_check(value text);
value tapmallet_ocaml_run(value text);

/* Number and line of a glue text's answer. */
CAMLprim value tapmallet_ocaml_check(value text)
{
    CAMLparam1(text);
    CAMLlocal1(pair);
    struct tapmallet_answer answer;

    if (tapmallet_check_text(String_val(text), caml_string_length(text), &answer) != 0)
        caml_invalid_argument("Tapmallet.check");
    pair = caml_alloc_tuple(2);
    Store_field(pair, 0, Val_long((long)answer.number));
    Store_field(pair, 1, Val_long((long)answer.line));
    CAMLreturn(pair);
}

/* What taprun prints of a joined text. */
CAMLprim value tapmallet_ocaml_run(value text)
{
    CAMLparam1(text);
    char out[TAPMALLET_PRINTED_BYTES];
    size_t printed;

    if (tapmallet_run_text(String_val(text), caml_string_length(text), out, sizeof out, &printed) != 0)
        caml_invalid_argument("Tapmallet.printed");
    CAMLreturn(caml_alloc_initialized_string(printed, out));
}
