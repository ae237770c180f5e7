#!/usr/bin/env bash
# Installs below a fresh folder and uses what was installed as a stranger would.
#
#   PIRASTEH_LIB_DIR=.. tests/install.sh
#
# PIRASTEH_LIB_DIR is the folder that holds libpirasteh.a. CC is the C compiler, cc if not set.
set -uo pipefail
: "${PIRASTEH_LIB_DIR:?is not set: give the folder that holds libpirasteh.a}"
PIRASTEH_LIB_DIR=$(cd "$PIRASTEH_LIB_DIR" && pwd)
root=$(cd "$(dirname "$0")/.." && pwd)
export PIRASTEH_LIB_DIR CARGO_TARGET_DIR=${CARGO_TARGET_DIR:-$root/target/cargo}
room=$(mktemp -d)
trap 'rm -rf "$room"' EXIT
cd "$room" || exit 1
failures=0
steps=0

expect() { # name, what is expected, what came
    steps=$((steps + 1))
    [ "$2" = "$3" ] && return
    failures=$((failures + 1))
    printf 'FAILED %s: `%s`, expected `%s`\n' "$1" "$3" "$2"
}

# Into a relative prefix, from another folder than the repository's.
"$root/scripts/install" tree >installed
expect 'the status of scripts/install' 0 $?
expect 'what was put in place' "$(cat <<FILES
tree/bin/pirasteh
tree/include/pirasteh.h
tree/lib/libpirasteh.a
tree/lib/pkgconfig/pirasteh.pc
tree/share/doc/pirasteh/COMING-FROM-WINDOWS.md
tree/share/doc/pirasteh/FORMATS.md
tree/share/doc/pirasteh/FROM-REAL-LIFE.md
tree/share/doc/pirasteh/PROMISES.md
tree/share/doc/pirasteh/REFUSALS.md
tree/share/doc/pirasteh/RULES.md
tree/share/man/man1/pirasteh.1
tree/share/man/man3/pirasteh.3
tree/share/man/man3/pirasteh_allows.3
tree/share/man/man3/pirasteh_check.3
tree/share/man/man3/pirasteh_list.3
tree/share/man/man3/pirasteh_pack.3
tree/share/man/man3/pirasteh_question.3
tree/share/man/man3/pirasteh_trail.3
tree/share/man/man3/pirasteh_trail_question.3
tree/share/man/man3/pirasteh_why.3
tree/share/man/man3/pirasteh_why_question.3
FILES
)" "$(find tree -type f | sort)"
expect 'what scripts/install said' "$(find "$PWD/tree" -type f | sort)" "$(sort installed)"

# The C examples, away from the repository, with what pkg-config says alone.
answer='granted 0x00120089 allowed yes staged no'
if command -v pkg-config >/dev/null; then
    export PKG_CONFIG_PATH=$PWD/tree/lib/pkgconfig
    for name in ask why trail token; do
        cp "$root/examples/c/$name.c" .
        # shellcheck disable=SC2046
        "${CC:-cc}" "$name.c" $(pkg-config --cflags --libs pirasteh) -o "$name"
        expect "$name.c with pkg-config" 0 $?
    done
    expect 'what ask.c prints' "$answer" "$(./ask)"
    expect 'what why.c prints last' 'granted 0x00000001' "$(./why | tail -n 1)"
    expect 'what trail.c prints last' 'event source 1 entry 0 mask 0x10000000' "$(./trail | tail -n 1)"
    version=$(pkg-config --modversion pirasteh)
    expect 'the version of the command' "pirasteh $version" "$(tree/bin/pirasteh --version | head -n 1)"
    expect 'the version of the Rust parts' "$version" \
        "$(sed -n '/^\[workspace.package\]/,/^$/s/^version = "\(.*\)"$/\1/p' "$root/Cargo.toml")"
    expect 'the version that CHANGELOG.md begins with' "$version" \
        "$(sed -n 's/^## \([0-9.]*\).*/\1/p' "$root/CHANGELOG.md" | head -n 1)"
    IFS=. read -r major minor patch <<<"$version"
    cat >number.c <<C
#include <pirasteh.h>
int right[PIRASTEH_VERSION_NUMBER == $((10#$major * 10000 + 10#$minor * 100 + 10#$patch)) ? 1 : -1];
C
    "${CC:-cc}" -c number.c $(pkg-config --cflags pirasteh)
    expect 'the version number of the header' 0 $?
else
    echo '  pkg-config is not there: the examples were not built against the installed tree'
fi
expect 'the installed command' "$answer" "$(tree/bin/pirasteh ask "$root/crates/ask/data/c1")"
expect 'the installed command, why' 'lost 0x00010000 delete: normal evaluation' \
    "$(tree/bin/pirasteh why "$root/crates/ask/data/lost" | tail -n 1)"
expect 'the installed command, trail' 'event source 1 entry 0 mask 0x10000000' \
    "$(tree/bin/pirasteh trail "$root/crates/ask/data/opened" | tail -n 1)"

# The man pages: no complaint of the formatter, every name found.
if command -v groff >/dev/null; then
    for page in tree/share/man/man1/*.1 tree/share/man/man3/*.3; do
        (cd tree/share/man && groff -man -Tutf8 -ww "${page#tree/share/man/}") >text 2>said
        expect "${page##*/} by groff" '' "$(cat said)"
    done
else
    echo '  groff is not there: the man pages were not formatted'
fi
# Every function of the header has its page, and stands on the one that all lead to.
names=$(grep -oE '^(PIRASTEH_INLINE int|uint32_t) pirasteh_[a-z_]+' "$root/include/pirasteh.h" | grep -o '[^ ]*$' | sort -u)
expect 'functions of the header' 9 "$(wc -w <<<"$names")"
for name in $names; do
    expect "a page for $name" 1 "$(ls "tree/share/man/man3/$name.3" | wc -l)"
    expect "$name in pirasteh(3)" 1 "$(grep -c "^\.BI \".* $name(" tree/share/man/man3/pirasteh.3)"
done
# The refusals of the man page are those that the command lists.
listed() { tree/bin/pirasteh --help | sed -n '/^Refusals:/,$s/^ *\([0-9][0-9]*\)  \(.*\)$/\1 \2/p'; }
paged() {
    sed -n '/^\.SH REFUSALS/,/^\.PP/p' tree/share/man/man1/pirasteh.1 | tr '\n' ' ' |
        sed 's/ \.TP \.B /\n/g; s/ \.PP *$/\n/' | sed '1d; s/^\([0-9]* \)\(.\)\(.*\)\.$/\1\L\2\E\3/'
}
expect 'how many refusals the command lists' 12 "$(listed | wc -l)"
expect 'the refusals of pirasteh(1)' "$(listed)" "$(paged)"
for page in pirasteh.1 pirasteh.3; do
    expect "the version of $page" 1 "$(grep -c "^\.TH .*\"pirasteh ${version:-.*}\"" "$root/man/$page")"
done

# DESTDIR goes before the prefix, and not into pirasteh.pc.
DESTDIR=$PWD/stage "$root/scripts/install" /usr/local >/dev/null
expect 'the prefix of a staged tree' prefix=/usr/local "$(grep ^prefix= stage/usr/local/lib/pkgconfig/pirasteh.pc)"

# What is missing is said, with status 2, and nothing is put in place.
tools=$room/tools
mkdir "$tools"
for tool in bash dirname mktemp rm sed cat install mkdir env; do
    ln -s "$(command -v "$tool")" "$tools/$tool"
done
without() { # what has to be named, script and words
    local missing=$1
    shift
    said=$(CC= PATH=$tools PIRASTEH_LIB_DIR=${lib-} "$root/scripts/$1" "${@:2}" 2>&1)
    expect "the status of scripts/$1 without $missing" 2 $?
    expect "what scripts/$1 says without $missing" 1 "$(grep -c "^[a-z-]*: \`$missing\` is not on the path: " <<<"$said")"
}
without rt archive out
without rt programs out
without cargo build out
without cargo install prefix
without cargo bench
without rt test-outside
ln -s "$(command -v cargo)" "$tools/cargo"
without cc build out
without cc install prefix
ln -s "$(command -v cc)" "$tools/cc"
without rt build out
without rt install prefix
# On another processor than the one that the kit compiles for, that is said.
printf '#!/bin/sh\n' >"$tools/rt"
printf '#!/bin/sh\necho aarch64\n' >"$tools/uname"
chmod +x "$tools/rt" "$tools/uname"
elsewhere() { # script and words
    said=$(CC= PATH=$tools PIRASTEH_LIB_DIR= "$root/scripts/$1" "${@:2}" 2>&1)
    expect "the status of scripts/$1 on another processor" 2 $?
    expect "what scripts/$1 says on another processor" 1 \
        "$(grep -c '^[a-z-]*: the kit compiles for x86-64 alone, and this is `aarch64`: ' <<<"$said")"
}
elsewhere archive out
elsewhere programs out
elsewhere build out
elsewhere install prefix
elsewhere test-outside
expect 'a failed install puts nothing in place' '' "$(ls -d prefix out 2>/dev/null)"
called() { # script and words: status and what it says
    local said
    said=$("$root/scripts/$1" "${@:2}" 2>&1)
    echo "$? $said"
}
expect 'scripts/install without a prefix' '2 usage: install PREFIX' "$(called install)"
expect 'scripts/install of an empty prefix' '2 usage: install PREFIX' "$(called install '')"
expect 'scripts/install --help' '0 usage: install PREFIX' "$(called install --help)"
expect 'scripts/install --prefix=x' '2 usage: install PREFIX' "$(called install --prefix=x)"
expect 'scripts/build -h' '0 usage: build [OUT-DIR]' "$(called build -h)"
expect 'scripts/build with two words' '2 usage: build [OUT-DIR]' "$(called build a b)"
expect 'scripts/archive --help' '0 usage: archive OUT-DIR' "$(called archive --help)"
expect 'scripts/programs --help' '0 usage: programs OUT-DIR' "$(called programs --help)"
expect 'scripts/programs without a folder' '2 usage: programs OUT-DIR' "$(called programs)"
groups='table|small|hard|policy|long|spare|owner|conditions|why|trail|conversions'
expect 'scripts/bench --fast' "2 usage: bench [$groups].." "$(called bench --fast)"
expect 'scripts/bench of a group that is none' \
    "2 bench: there is no group of rows \`fast\`; there are ${groups//|/, }" "$(called bench fast)"
expect 'scripts/test-outside --help' '0 usage: test-outside ' "$(called test-outside --help)"

echo "install: $steps steps, $failures failures"
[ "$failures" -eq 0 ]
