#!/usr/bin/env bash
# The header and the library from C and C++: every standard of every compiler, the numbers in the
# header, what compilers have to warn about, and the vector files.
#
#   PIRASTEH_LIB_DIR=.. tests/c/run.sh
#
# PIRASTEH_LIB_DIR is the directory that holds libpirasteh.a. CC is the C compiler, cc if not set;
# it builds the program that is run. gcc, clang, g++, clang++, CC and CXX are all tried on the
# sources, if they are there. Builds below target/. The exit code is 0 only if nothing failed.
set -uo pipefail

stop() { # why
    echo "tests/c/run.sh: $1"
    exit 1
}

[ -n "${PIRASTEH_LIB_DIR:-}" ] ||
    stop 'PIRASTEH_LIB_DIR is not set: give the directory that holds libpirasteh.a'
[ -f "$PIRASTEH_LIB_DIR/libpirasteh.a" ] || stop "there is no libpirasteh.a in $PIRASTEH_LIB_DIR"
PIRASTEH_LIB_DIR=$(cd "$PIRASTEH_LIB_DIR" && pwd) || exit 1
cd "$(dirname "$0")/../.." || exit 1
export LC_ALL=C # what compilers say is read below
out=target/tests-c
mkdir -p "$out" || exit 1
failures=0

strict=(-Wall -Wextra -Wpedantic -Werror -Iinclude)
further=(-Wconversion -Wsign-conversion -Wshadow -Wundef -Wstrict-prototypes -Wold-style-cast
    -Wzero-as-null-pointer-constant)
sources=(examples/c/ask.c examples/c/why.c examples/c/trail.c examples/c/token.c
    tests/c/vectors.c tests/c/rights.c tests/c/shadow.c)

there() { # compiler
    command -v "$1" >/dev/null
}

those_there() { # compilers: those that are there, each once
    local compiler seen=' '
    for compiler in "$@"; do
        case $seen in *" $compiler "*) continue ;; esac
        there "$compiler" || continue
        seen="$seen$compiler "
        echo "$compiler"
    done
}

fail() { # what failed, what was said
    failures=$((failures + 1))
    echo "FAILED $1"
    [ -z "$2" ] || echo "$2"
    return 1
}

quietly() { # what is tried, command: it has to succeed, and to say nothing
    local what=$1 said
    shift
    said=$("$@" 2>&1) || fail "$what" "$said" || return 1
    [ -z "$said" ] || fail "$what: it was not silent" "$said"
}

# ---- every standard

accepts() { # command on an empty file
    "$@" -fsyntax-only /dev/null >/dev/null 2>&1
}

known() { # compiler, language: the further warnings that it knows
    local flag
    for flag in "${further[@]}"; do
        accepts "$1" -x "$2" -Werror "$flag" && echo "$flag"
    done
}

name_of() { # compiler, language, names of one standard: the first that it accepts
    local compiler=$1 language=$2 name
    shift 2
    for name in "$@"; do
        accepts "$compiler" -x "$language" -std="$name" && echo "$name" && return
    done
}

# The header is compiled down to assembly: with less, gcc has no word on unused functions.
clean() { # what is tried, header, compile command
    local what=$1 header=$2
    shift 2
    quietly "$what, $header" "$@" -S -o /dev/null "$header" &&
        quietly "$what" "$@" -fsyntax-only "${sources[@]}"
}

standards() { # compiler, language, header, needed standard, standards (a|b: two names of one)
    local compiler=$1 language=$2 header=$3 needed=$4 flags names std passed=''
    shift 4
    quietly "$compiler, no code" "$compiler" -x "$language" -fsyntax-only /dev/null || return 1
    mapfile -t flags < <(known "$compiler" "$language")
    for names in "$@"; do
        std=$(name_of "$compiler" "$language" "${names%|*}" "${names#*|}")
        [ -n "$std" ] || continue
        clean "$compiler -std=$std" "$header" \
            "$compiler" -x "$language" -std="$std" "${strict[@]}" "${flags[@]}" &&
            passed="$passed $std"
    done
    echo "  $compiler:$passed (${#flags[@]} of ${#further[@]} further warnings)"
    case "$passed " in *" $needed "*) return 0 ;; esac
    fail "$compiler: $needed did not pass" ''
}

# The version stands in the header as text and as a number.
version() {
    local text number expected='of three numbers'
    text=$(sed -n 's/^#define PIRASTEH_VERSION  *"\(.*\)"$/\1/p' include/pirasteh.h)
    number=$(sed -n 's/^#define PIRASTEH_VERSION_NUMBER //p' include/pirasteh.h)
    if [[ $text =~ ^([0-9]+)\.([0-9]+)\.([0-9]+)$ ]]; then
        expected=$((BASH_REMATCH[1] * 10000 + BASH_REMATCH[2] * 100 + BASH_REMATCH[3]))
    fi
    [ "$number" = "$expected" ] ||
        fail "include/pirasteh.h: version \`$text\` and number \`$number\` do not agree" ''
}

# gcc plays a compiler that has no word for `inline`.
without_inline() {
    quietly 'the header without inline' \
        gcc -std=c90 "${strict[@]}" -DPIRASTEH_INLINE=static -S -o /dev/null tests/c/header.c
}

# ---- what has to be warned about

marks() { # the lines of misuse.c that have to be warned about, with the warning
    awk '/\/\* (unused-result|nonnull) \*\/$/ { print NR, $(NF - 1) }' tests/c/misuse.c
}

warnings() { # compiler, language: the lines of misuse.c that are warned about, likewise
    "$1" -x "$2" -Wall -Wextra -Wpedantic -Iinclude -S -o /dev/null tests/c/misuse.c 2>&1 |
        sed -n 's|^[^:]*misuse\.c:\([0-9]*\):.*warning: .*\[-W\([a-z-]*\)\]$|\1 \2|p' | sort -n -u
}

like_gcc() { # compiler, language: gcc and clang are, and those that say so
    case $("$1" -x "$2" -dM -E /dev/null 2>/dev/null) in *__GNUC__*) return 0 ;; esac
    return 1
}

misuse() { # compiler, language
    local said compile=("$1" -x "$2" "${strict[@]}" -S -o /dev/null tests/c/misuse.c)
    like_gcc "$1" "$2" || {
        echo "  $1: neither gcc nor clang, not tried"
        return
    }
    quietly "$1, the correct twin of misuse.c" "${compile[@]}" -DCORRECT || return 1
    if "${compile[@]}" >/dev/null 2>&1; then
        fail "$1: misuse.c passes with -Werror" ''
        return 1
    fi
    said=$(diff <(marks) <(warnings "$1" "$2")) ||
        fail "$1, misuse.c: lines to be warned about (<), and warned about (>)" "$said" || return 1
    echo "  $1: $(marks | wc -l) mistakes, each warned about"
}

# ---- the vector files

build() { # program, compile command
    local program=$1
    shift
    quietly "build of $program" "$@" "${strict[@]}" tests/c/vectors.c -o "$out/$program" \
        -L"$PIRASTEH_LIB_DIR" -x none -lpirasteh
}

run() { # what is run, command: of what it prints the last line alone is shown
    local what=$1 said
    shift
    said=$("$@" tests/vectors/*.txt 2>&1) || fail "$what" "$said" || return 1
    echo "  $what: ${said##*$'\n'}"
}

works() { # command that makes or runs a program that does nothing
    "$@" >/dev/null 2>&1
}

plain() { # C compiler
    build vectors "$1" -x c -std=c90 -O2 || return 1
    "$out/vectors" tests/vectors/*.txt || fail vectors ''
}

sanitized() { # C compiler
    local flags=(-g '-fsanitize=address,undefined' -fno-sanitize-recover=all)
    if works "$1" "${flags[@]}" "$out/nothing.c" -o "$out/nothing" && works "$out/nothing"; then
        build vectors-sanitized "$1" -x c -std=c90 "${flags[@]}" &&
            run 'address and undefined sanitizer' "$out/vectors-sanitized"
    else
        echo '  address and undefined sanitizer: not there, not tried'
    fi
}

# The archive is not built for the sanitizer. This one looks into it.
valgrinded() { # C compiler
    if works "$1" "$out/nothing.c" -o "$out/nothing" && works valgrind "$out/nothing"; then
        run valgrind valgrind -q --error-exitcode=1 "$out/vectors"
    else
        echo '  valgrind: not there, not tried'
    fi
}

as_cxx() { # C++ compiler
    build vectors-c++ "$1" -x c++ -std=c++98 -O2 && run 'as C++' "$out/vectors-c++"
}

# ---- all of it

[ -z "${CC:-}" ] || there "$CC" || stop "CC is '$CC', and there is no such compiler"
[ -z "${CXX:-}" ] || there "$CXX" || stop "CXX is '$CXX', and there is no such compiler"
mapfile -t c_compilers < <(those_there gcc clang ${CC:+"$CC"})
mapfile -t cxx_compilers < <(those_there g++ clang++ ${CXX:+"$CXX"})
[ ${#c_compilers[@]} -gt 0 ] || mapfile -t c_compilers < <(those_there cc)
[ ${#c_compilers[@]} -gt 0 ] ||
    stop 'there is no C compiler: neither cc, gcc nor clang is there, and CC is not set'
cc=${CC:-cc}
there "$cc" || cc=${c_compilers[0]}

echo '== every standard'
for compiler in "${c_compilers[@]}"; do
    standards "$compiler" c tests/c/header.c c90 c90 c99 c11 c17 'c23|c2x'
done
for compiler in "${cxx_compilers[@]}"; do
    standards "$compiler" c++ tests/c/header.cc c++98 \
        c++98 c++03 c++11 c++14 c++17 c++20 'c++23|c++2b'
done
[ ${#cxx_compilers[@]} -gt 0 ] || echo '  C++: no compiler is there, not tried'
if there gcc; then without_inline; fi
version

echo '== what has to be warned about'
for compiler in "${c_compilers[@]}"; do misuse "$compiler" c; done
for compiler in "${cxx_compilers[@]}"; do misuse "$compiler" c++; done

echo '== vectors'
echo 'int main(void) { return 0; }' >"$out/nothing.c"
if plain "$cc"; then valgrinded "$cc"; fi
sanitized "$cc"
if [ ${#cxx_compilers[@]} -gt 0 ]; then as_cxx "${cxx_compilers[0]}"; fi

if [ "$failures" -eq 0 ]; then
    echo 'tests/c: all passed'
else
    echo "tests/c: $failures failures"
    exit 1
fi
