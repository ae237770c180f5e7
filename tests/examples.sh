#!/usr/bin/env bash
# Builds and runs the example programs, and checks what they print.
#
#   PIRASTEH_LIB_DIR=.. tests/examples.sh
#
# PIRASTEH_LIB_DIR is the directory that holds libpirasteh.a. CC is the C compiler, cc if not set.
set -euo pipefail
: "${PIRASTEH_LIB_DIR:?is not set: give the directory that holds libpirasteh.a}"
PIRASTEH_LIB_DIR=$(cd "$PIRASTEH_LIB_DIR" && pwd)
export PIRASTEH_LIB_DIR
cd "$(dirname "$0")/.."
export CARGO_TARGET_DIR=${CARGO_TARGET_DIR:-$PWD/target/cargo}
expected='granted 0x00120089 allowed yes staged no'

build_c() { # source, program, further words for the compiler
    local source=$1 program=$2
    shift 2
    "${CC:-cc}" -std=c99 -Wall -Wextra -Wpedantic -Werror -O2 -Iinclude "$@" "examples/c/$source" \
        -L"$PIRASTEH_LIB_DIR" -lpirasteh -o "target/examples/$program"
}

check() { # what is tried, program, the exit code and the lines that are expected
    local said code=0
    said=$("$2") || code=$?
    if [ "$said" != "$4" ] || [ "$code" -ne "$3" ]; then
        echo "FAILED $1: it printed \`$said\` with exit code $code, expected \`$4\` with $3"
        exit 1
    fi
    echo "  $1: ${said//$'\n'/; }"
}

check_c() { # the same, of a program in C
    check "$1" "target/examples/$2" "$3" "$4"
}

full_c() { # program: nothing can be printed, and it says so by its exit code
    local code=0
    [ -c /dev/full ] || return 0
    "target/examples/$1" >/dev/full 2>&1 || code=$?
    if [ "$code" -ne 2 ]; then
        echo "FAILED $1 on a full device: exit code $code, expected 2"
        exit 1
    fi
}

if ! command -v "${CC:-cc}" >/dev/null; then
    echo "examples.sh: there is no C compiler \`${CC:-cc}\`: set CC"
    exit 1
fi
mkdir -p target/examples
build_c ask.c ask-c
build_c ask.c ask-c-no -DASKED=PIRASTEH_FILE_WRITE_DATA
build_c ask.c ask-c-refused -DASKED=0x00400000u
build_c why.c why-c
build_c why.c why-c-yes -DASKED=PIRASTEH_FILE_READ_DATA
build_c why.c why-c-refused -DASKED=0x00400000u
build_c trail.c trail-c
build_c trail.c trail-c-no -DASKED=PIRASTEH_DELETE
build_c trail.c trail-c-full -DROOM=10
build_c trail.c trail-c-short -DROOM=9
build_c token.c token-c
check_c 'examples/c/ask.c' ask-c 0 "$expected"
check_c 'examples/c/ask.c, not allowed' ask-c-no 1 'granted 0x00000000 allowed no staged no'
check_c 'examples/c/ask.c, refused' ask-c-refused 3 'refused 2'
check_c 'examples/c/why.c' why-c 1 'asked 0x00010023
lost at normal evaluation 0x00010000
lost at confinement 0x00000020
lost at the policy 0x00000002
granted 0x00000001'
check_c 'examples/c/why.c, allowed' why-c-yes 0 'asked 0x00000001
lost at normal evaluation 0x00000000
lost at confinement 0x00000000
lost at the policy 0x00000000
granted 0x00000001'
check_c 'examples/c/why.c, refused' why-c-refused 3 'refused 2'
opened='granted 0x00000001 allowed yes staged no
event source 0 entry 1 mask 0x00000001
event source 1 entry 0 mask 0x10000000'
check_c 'examples/c/trail.c' trail-c 0 "$opened"
check_c 'examples/c/trail.c, not allowed' trail-c-no 1 'granted 0x00000000 allowed no staged no
event source 0 entry 0 mask 0x10000000
event source 1 entry 0 mask 0x10000000'
check_c 'examples/c/trail.c, exact room' trail-c-full 0 "$opened"
check_c 'examples/c/trail.c, a byte too little' trail-c-short 3 'refused 11'
check_c 'examples/c/token.c' token-c 0 'record 24 bytes, listing 88 bytes, back 24 bytes: the same'
full_c ask-c
full_c why-c
full_c trail-c
full_c token-c

cargo build --quiet --release --offline --package ask
check 'examples/rust' "$CARGO_TARGET_DIR/release/ask" 0 "$expected
lost 0x00010000 delete: normal evaluation
event source 0 entry 0 mask 0x10000000"
echo "examples: 5 programs, 0 failures"
