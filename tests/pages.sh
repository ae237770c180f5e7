#!/usr/bin/env bash
# Types in what the pages say to type in, and compares what is printed.
#
#   PIRASTEH=/path/to/pirasteh PIRASTEH_LIB_DIR=.. tests/pages.sh
#
# A transcript is a block of lines indented by four spaces that starts with `$ `. The commands of a
# page run one after another in one shell, with `pirasteh` on the path: those of README.md and
# CONTRIBUTING.md at the root of the repository, those of the other pages in an empty folder. What a
# command prints, on both outputs, has to be what stands below it; `...` stands for anything. Commands
# that prove (`rt`, `.ci/run`, `scripts/programs`) are the gate's own and are left out. Paths in
# backquotes have to be there, and so have the vectors that docs/REFUSALS.md names, with its numbers,
# and the cases and definitions that docs/RULES.md names; the examples that docs/FORMATS.md takes apart
# are the files.
set -uo pipefail
: "${PIRASTEH:?is not set: give the absolute path of the command}"
: "${PIRASTEH_LIB_DIR:?is not set: give the folder that holds libpirasteh.a}"
PIRASTEH_LIB_DIR=$(cd "$PIRASTEH_LIB_DIR" && pwd)
export PIRASTEH_LIB_DIR
root=$(cd "$(dirname "$0")/.." && pwd)
room=$(mktemp -d)
trap 'rm -rf "$room"' EXIT
mkdir "$room/bin"
ln -s "$PIRASTEH" "$room/bin/pirasteh"
failures=0
commands=0
left_out=0

# read_page FILE: the commands into `typed`, what stands below each into `shown`.
read_page() {
    local line inside=no
    typed=()
    shown=()
    while IFS= read -r line; do
        case $line in
            '    $ '*)
                inside=yes
                typed+=("${line#'    $ '}")
                shown+=('')
                ;;
            '    '*) [ $inside = no ] || shown[-1]+="${line#    }"$'\n' ;;
            *) inside=no ;;
        esac
    done <"$1"
}

# as_script: the commands as one script that prints a mark with the number of each before and after.
as_script() {
    local i
    echo 'exec 2>&1'
    for i in "${!typed[@]}"; do
        printf 'printf "@@@%d\\n"\n(exit ${kept:-0})\n' "$i"
        case ${typed[i]} in
            'rt '* | .ci/run* | scripts/programs*) printf ':\n' ;;
            *) printf '%s\n' "${typed[i]}" ;;
        esac
        printf 'kept=$?\nprintf "\\n"\n'
    done
    echo 'printf "@@@end\n"'
}

try_page() { # page, folder to run in
    local i printed
    read_page "$root/$1"
    [ ${#typed[@]} -gt 0 ] || return
    as_script >"$room/script"
    mkdir -p "$room/home"
    (cd "$2" && CARGO_HOME=${CARGO_HOME:-${HOME:-}/.cargo} RUSTUP_HOME=${RUSTUP_HOME:-${HOME:-}/.rustup} \
        HOME=$room/home PATH=$room/bin:$PATH timeout 300 bash "$room/script") \
        </dev/null >"$room/printed" 2>&1
    for i in "${!typed[@]}"; do
        case ${typed[i]} in
            'rt '* | .ci/run* | scripts/programs*) left_out=$((left_out + 1)) && continue ;;
        esac
        commands=$((commands + 1))
        [ "${shown[i]}" != $'...\n' ] || continue
        printed=$(sed -n "/^@@@$i\$/,/^@@@/p" "$room/printed" | sed '1d;$d')
        if [ "$printed" != "$(printf '%s' "${shown[i]}")" ]; then
            failures=$((failures + 1))
            printf 'FAILED %s: $ %s\nit printed:\n%s\nthe page says:\n%s\n' "$1" "${typed[i]}" "$printed" "${shown[i]}"
        fi
    done
}

try_paths() { # page
    local path
    grep -oE '`(crates|docs|tests|scripts|include|examples|rust|command|man)/[A-Za-z0-9_./-]+`' "$root/$1" | tr -d '`' |
        grep -v /NAME | sort -u | while IFS= read -r path; do
        [ -e "$root/$path" ] || echo "FAILED $1: there is no $path"
    done | tee "$room/dead"
    [ ! -s "$room/dead" ] || failures=$((failures + $(wc -l <"$room/dead")))
}

# The cases that REFUSALS names: the line stands above one case of its file, whose number is the
# section's (or, in the table of the order, the one beside it).
try_vectors() {
    local line number= reason file expected
    while IFS= read -r line; do
        case $line in
            '## '[0-9]*:*) number=${line#\#\# } && number=${number%%:*} ;;
            '| `# '*)
                reason=${line#'| `'} && reason=${reason%%'` |'*}
                file=$(sed -n 's/.*| `\([a-z]*\.txt\)` |$/\1/p' <<<"$line")
                expected=$number
                [ -n "$file" ] || { file=refusals.txt && expected=$(sed -n 's/.*| \([0-9]*\) |$/\1/p' <<<"$line"); }
                vectors=$((vectors + 1))
                grep -A2 -Fx -- "$reason" "$root/tests/vectors/$file" | tail -n 1 |
                    grep -qxE "(line = refused|refused =) $expected" && continue
                failures=$((failures + 1))
                echo "FAILED docs/REFUSALS.md: \`$reason\` is no case of $file that is refused with $expected"
                ;;
        esac
    done <"$root/docs/REFUSALS.md"
}

# The tables of FORMATS that take an example apart: their bytes, row by row, are those of the file.
try_bytes() { # section, file
    local shown
    shown=$(awk -v head="### $1" '$0 == head { on = 1; next } /^##/ { on = 0 } on && /^\| [0-9]/' "$root/docs/FORMATS.md" |
        sed 's/^[^`]*`\([0-9a-f ]*\)`.*/\1/' | tr -d ' \n')
    [ "$shown" = "$(od -An -tx1 -v "$root/$2" | tr -d ' \n')" ] && return
    failures=$((failures + 1))
    echo "FAILED docs/FORMATS.md: the bytes under '$1' are not those of $2"
}

# The rules of RULES, each on one line.
rules() { awk '/^$/ { print line; line = "" } { line = line " " $0 } END { print line }' "$root/docs/RULES.md"; }

# The cases of RULES: what stands in backquotes behind *Case:* is the reason line of some vector.
try_cases() {
    local reason
    while IFS= read -r reason; do
        cases=$((cases + 1))
        grep -qFx -- "# $reason" "$root"/tests/vectors/*.txt && continue
        failures=$((failures + 1))
        echo "FAILED docs/RULES.md: no vector has the reason \`$reason\`"
    done < <(rules | sed 's/ - \*Reading:/\n&/g' | grep -F '*Case:*' | sed 's/.*\*Case:\*//' | grep -o '`[^`]*`' | tr -d '`')
}

# The definitions of RULES: (`name`, .., crate/specs/File.antt; ..) is declared in that file.
try_definitions() {
    local part file name
    while IFS= read -r part; do
        file=$(grep -oE '[a-z]+/specs/[A-Za-z]+\.antt' <<<"$part")
        for name in $(grep -o '`[^`]*`' <<<"$part" | tr -d '`'); do
            definitions=$((definitions + 1))
            grep -qE "^(abbrev |unfoldable )?pub (record |data )?$name( |:|\$)" "$root/crates/$file" && continue
            failures=$((failures + 1))
            echo "FAILED docs/RULES.md: $file declares no $name"
        done
    done < <(rules | grep -oE '\(`[^)]*/specs/[^)]*\)' | tr ';' '\n' | grep /specs/)
}

pages=(README.md CONTRIBUTING.md CHANGELOG.md)
for page in FORMATS REFUSALS RULES FROM-REAL-LIFE COMING-FROM-WINDOWS PROMISES; do
    pages+=("docs/$page.md")
done
for page in "${pages[@]}"; do
    try_paths "$page"
    case $page in
        docs/*)
            mkdir -p "$room/folders/$page"
            try_page "$page" "$room/folders/$page"
            ;;
        *) try_page "$page" "$root" ;;
    esac
done
vectors=0 cases=0 definitions=0
try_bytes 'A question file' crates/ask/data/c1
try_bytes 'Its token record' crates/token/data/TU
try_bytes 'Its flat listing' crates/token/stdout
try_bytes 'A question that loses a right at each step' crates/ask/data/lost
try_bytes 'A question that leaves a trail' crates/ask/data/opened
try_vectors
try_cases
try_definitions
for number in "$commands" "$vectors" "$cases" "$definitions"; do
    [ "$number" -ge 50 ] || { failures=$((failures + 1)) && echo "FAILED: only $number of something that there is much of"; }
done
echo "pages: ${#pages[@]} pages, $commands commands typed in ($left_out that prove left out), looked up $vectors" \
    "vectors, $cases cases and $definitions definitions, $failures failures"
[ "$failures" -eq 0 ]
