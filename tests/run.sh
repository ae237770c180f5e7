#!/usr/bin/env bash
# Everything that is run from outside: tests, vectors and comparison against the library, from Rust
# and from C; the command, the installation, the examples, and the pages.
#
#   PIRASTEH_LIB_DIR=.. tests/run.sh
#
# PIRASTEH_LIB_DIR  the directory that holds libpirasteh.a
# PIRASTEH_COUNT    random cases to compare, 1,000,000 if not set
# PIRASTEH_SEED     their seed, 1 if not set
#
# Needs cargo and a C compiler, and no network. Builds below target/. The exit code is 0 only if
# nothing failed; the last line says what failed.
set -uo pipefail
. "$(dirname "$0")/../scripts/common"
need_cargo
need_cc
if [ ! -f "${PIRASTEH_LIB_DIR:-}/libpirasteh.a" ]; then
    echo "run.sh: set PIRASTEH_LIB_DIR to the directory that holds libpirasteh.a;" \
        "\`scripts/archive target/native\` makes it in target/native"
    exit 1
fi
PIRASTEH_LIB_DIR=$(cd "$PIRASTEH_LIB_DIR" && pwd) || exit 1
export PIRASTEH_LIB_DIR
cd "$(dirname "$0")/.." || exit 1
mkdir -p "${CARGO_TARGET_DIR:=target/cargo}" || exit 1
CARGO_TARGET_DIR=$(cd "$CARGO_TARGET_DIR" && pwd) || exit 1
export CARGO_TARGET_DIR
cargo=(--quiet --release --offline)
failed=()

step() { # name, command
    local name=$1
    shift
    echo "== $name"
    "$@" || failed+=("$name")
}

unit() { # which packages, in cargo's words
    cargo test "${cargo[@]}" "$@" 2>&1 | grep -v '^$'
    return "${PIPESTATUS[0]}"
}

# What is wrong with the wrapper and the command in the eyes of clippy, where there is one.
lint() {
    if ! cargo clippy --version >/dev/null 2>&1; then
        echo '  skipped: there is no cargo clippy here'
        return 0
    fi
    cargo clippy "${cargo[@]}" --all-targets -p pirasteh -p pirasteh-command -- -D warnings
}

document() {
    RUSTDOCFLAGS='-D warnings' cargo doc "${cargo[@]}" --no-deps -p pirasteh
}

# With no library there: the documentation, the tests of the default members, and what the rest says.
without_library() (
    room=$(mktemp -d) || exit 1
    trap 'rm -rf "$room"' EXIT
    export PIRASTEH_LIB_DIR=$room CARGO_TARGET_DIR=$room/target
    cargo test --quiet --offline 2>&1 | grep '^test result' || exit 1
    [ "${PIPESTATUS[0]}" -eq 0 ] || exit 1
    RUSTDOCFLAGS='-D warnings' cargo doc --quiet --offline --no-deps -p pirasteh || exit 1
    if cargo build --offline -p pirasteh-command >"$room/said" 2>&1; then
        echo 'the command was linked without the library'
        exit 1
    fi
    grep -F 'run `scripts/archive target/native` at the root of the repository' "$room/said"
)

named=(pirasteh pirasteh-command pirasteh-reference pirasteh-vectors pirasteh-bench)
step 'tests of the wrapper' unit -p pirasteh
step 'tests of the command' unit -p pirasteh-command
step 'tests of the reference' unit -p pirasteh-reference
step 'tests of the vector files' unit -p pirasteh-vectors
step 'tests of the plain implementation' unit -p pirasteh-bench
step 'tests of the rest' unit --workspace "${named[@]/#/--exclude=}"
step 'clippy' lint
step 'documentation' document
step 'without the library' without_library
if cargo build "${cargo[@]}" --workspace; then
    compare=$CARGO_TARGET_DIR/release/compare
    export PIRASTEH=$CARGO_TARGET_DIR/release/pirasteh
    step 'vectors' "$compare" vectors tests/vectors
    step 'compare' "$compare" --count "${PIRASTEH_COUNT:-1000000}" --seed "${PIRASTEH_SEED:-1}"
    step 'command' tests/command.sh
    step 'install' tests/install.sh
    step 'pages' tests/pages.sh
else
    failed+=('build of the workspace')
fi
step 'C' tests/c/run.sh
step 'examples' tests/examples.sh

if [ ${#failed[@]} -eq 0 ]; then
    echo "run.sh: all passed"
else
    printf 'run.sh: FAILED:'
    printf ' %s;' "${failed[@]}"
    printf '\n'
    exit 1
fi
