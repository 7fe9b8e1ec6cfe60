# shellcheck shell=sh
# Sourced by the tests of the C header and of the OCaml binding, after count.sh: the proved library, and the texts that it is held to. Those are the corpus
# program's: its input, and what it must print, which was worked out by hand for cases/ and is the second program's for the others.
# shellcheck disable=SC2154
library=$PWD/target/staticlib/libexport.a
texts=$PWD/target/corpus/texts
answers=$PWD/target/corpus/answers

# The library is written if it is missing or older than the code.
build_library() {
    if [ -f "$library" ] && [ -z "$(find crates/*/src -name '*.rt' -newer "$library")" ]; then return; fi
    .ci/build library > "$room/said" 2>&1 || { tail -n 3 "$room/said" && return 1; }
}

make_texts() {
    if [ -f "$texts" ] && [ -f "$answers" ]; then return; fi
    (cd second && cargo build --release --offline --quiet) && .ci/texts 1 5000
}

# has_library NAME: both are there; or the test NAME is skipped where they cannot be, and failed where they were not made.
has_library() {
    if [ "$(uname -m)" != x86_64 ]; then
        skip "$1" "the proved library is x86-64 code, and this machine is not"
        return 1
    fi
    build_library || { fail "$1" "the proved library was not built" && return 1; }
    make_texts || { fail "$1" "the texts could not be made" && return 1; }
}
