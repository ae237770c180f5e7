#!/usr/bin/env bash
# Drives the command `pirasteh` through a shell, and the proved programs `ask` and `token` beside it.
#
#   PIRASTEH=/path/to/pirasteh tests/command.sh
#
# PIRASTEH      the command, by its absolute path
# PIRASTEH_BIN  the folder with the programs `ask` and `token`, target/bin if not set; where they do
#               not run (they are compiled for x86-64) the comparison with them is left out, and said
#
# The exit code is 0 only if nothing failed; the last line counts the cases.
set -uo pipefail
: "${PIRASTEH:?is not set: give the absolute path of the command}"
root=$(cd "$(dirname "$0")/.." && pwd)
bin=$(cd "${PIRASTEH_BIN:-$root/target/bin}" 2>/dev/null && pwd)
room=$(mktemp -d)
trap 'rm -rf "$room"' EXIT
cd "$room" || exit 1
export PIRASTEH
count=0
failures=0

fail() { # name, what happened
    failures=$((failures + 1))
    printf 'FAILED %s: %s\n' "$1" "$2"
}

# try NAME STATUS STDOUT STDERR COMMAND: runs the command in a shell. STDOUT is the exact text
# (without its last newline); STDERR is a pattern of bash, or empty for nothing.
try() {
    local status
    count=$((count + 1))
    timeout 20 bash -c "$5" >stdout 2>stderr </dev/null
    status=$?
    [ "$status" -eq "$2" ] || fail "$1" "status $status, expected $2 ($(cat stderr))"
    [ "$(cat stdout)" = "$3" ] || fail "$1" "printed \`$(cat stdout)\`, expected \`$3\`"
    # shellcheck disable=SC2053
    if [ -n "$4" ]; then
        [[ $(cat stderr) == $4 ]] || fail "$1" "standard error is \`$(cat stderr)\`, expected \`$4\`"
    elif [ -s stderr ]; then
        fail "$1" "standard error is \`$(cat stderr)\`, expected nothing"
    fi
}

same() { # name, file, file
    count=$((count + 1))
    cmp -s "$2" "$3" || fail "$1" "$2 and $3 differ"
}

bytes() { # hexadecimal digits, spaces allowed
    tr -d ' ' <<<"$1" | tr a-f A-F | basenc --base16 -d
}

# The cards c1 and c2, as the pages give them, and what is left of c1 with an owner offset of 0.
user='08 0100000205000700'
owner='07 01000001050700'
head='01 8080808008'
descriptor='0100048014000000000000000000000020000000 010100000000000507000000'
list='02002000010000000000180000000080010200000000000500000000 07000000'
ownerless='0100048000000000000000000000000020000000 010100000000000507000000'
bytes "$head $user 00 40 $descriptor $list 00" >c1
bytes "$head $owner 00 40 $descriptor $list 00" >c2
bytes "$head $user 00 40 $ownerless $list 00" >ownerless
# The cards c7 to c9; a key and a file of which all is asked, the file with an empty list; and a
# question that loses a right at each of the three steps.
entry() { # mask as four bytes, SID: allows it to that identity
    echo "00001800 $1 $2"
}
u='01020000000000050000000007000000'
packages='010200000000000f0200000002000000'
confined='11 0101000205000700 020f0209 01020f0202'
secure='12 010180020205000700 020f0209 01020f0202'
null='0100008014000000000000000000000000000000 010100000000000507000000'
read="20000000 0200200001000000 $(entry 01000000 $u)"
both="0200200001000000 $(entry 03000000 $u)"
none=00000000
bytes "01 03 $user 00 40 $descriptor $both 59 0101000000 $none $read $none 20000000 $both $none" >c7
bytes "$head $confined 00 40 $descriptor $list 00" >c8
bytes "01 81808008 $secure 00 20 $null 00" >c9
bytes "02 80808018 $user 00 40 $descriptor $list 00" >key
bytes "01 80808018 $user 00 28 $descriptor 0200080000000000 00" >file
two="0200380002000000 $(entry 23000000 $u) $(entry 03000000 $packages)"
bytes "01 a38004 $confined 00 58 $descriptor $two 39 0101000000 $none $read $none $none $none" >lost
# A question that two audit entries speak of, one of the descriptor's two and the rule's; the same with
# delete asked for, which is not allowed; and one with 4,090 entries that speak, for S-1-5.
audit() { # flags, mask as four bytes, SID
    echo "02${1}1800 $2 $3"
}
audited='0100148014000000000000002000000058000000 010100000000000507000000'
noted="0200380002000000 $(audit 80 00000010 $u) $(audit 40 01000000 $u)"
ruled="0200200001000000 $(entry 00000080 $u)"
seen="0200200001000000 $(audit c0 00000010 $u)"
rest="$user 00 78 $audited $noted $both 59 0101000000 $none 20000000 $ruled 20000000 $seen $none $none"
bytes "01 01 $rest" >opened
bytes "01 808004 $rest" >tried
bytes "01 01 06 010000000500 00 c4ff03 0100108014000000000000001c00000000000000 0100000000000005 0200a8fffa0f0000
    $(yes '02c01000 ffffffff 0100000000000005' | head -n 4090 | tr -d ' \n') 00" >many
bytes '0100000205000700' >record
bytes '00000000 0000000000000000 010200000000000500000000 07000000 00000000' >listing
bytes '8000' >bad
: >empty
mkdir folder
# A question of 65,536 bytes, and one of 65,537: c1 with spare bytes behind its descriptor's parts.
long() { # length of the descriptor in sevens, spare bytes
    bytes "$head $user 00 $1 $descriptor $list"
    head -c "$2" /dev/zero
    bytes 00
}
long ecff03 65452 >q65536
long edff03 65453 >q65537
[ "$(wc -c <q65536) $(wc -c <q65537)" = '65536 65537' ] || fail setup 'the long questions are not long'
cp c1 ./-dash
cp c1 'with a space'
cp c1 $'\xff\xfe'

yes='granted 0x00120089 allowed yes staged no'
no='granted 0x00020000 allowed no staged no'
same 'c1 is the program'\''s own card' c1 "$root/crates/ask/data/c1"
same 'lost is the program'\''s own question' lost "$root/crates/ask/data/lost"
same 'opened is the program'\''s own question' opened "$root/crates/ask/data/opened"

# ask: answers, statuses, refusals
try 'ask: allowed'                0 "$yes" '' '$PIRASTEH ask c1'
try 'ask: not allowed'            1 "$no" '' '$PIRASTEH ask c2'
try 'ask: refused'                3 'refused 7' '' '$PIRASTEH ask ownerless'
try 'ask: empty'                  3 'refused 12' '' '$PIRASTEH ask empty'
try 'ask: /dev/null'              3 'refused 12' '' '$PIRASTEH ask /dev/null'
try 'ask: 65,536 bytes'           0 "$yes" '' '$PIRASTEH ask q65536'
try 'ask: 65,537 bytes'           3 'refused 12' '' '$PIRASTEH ask q65537'
try 'ask: 65,536 bytes, a pipe'   0 "$yes" '' 'cat q65536 | $PIRASTEH ask -'
try 'ask: 65,537 bytes, a pipe'   3 'refused 12' '' 'cat q65537 | $PIRASTEH ask -'
try 'ask: a pipe without end'     3 'refused 12' '' 'cat /dev/zero | $PIRASTEH ask -'
try 'ask: standard input'         0 "$yes" '' '$PIRASTEH ask - <c1'
try 'ask: a slow pipe'            0 "$yes" '' \
    '{ head -c 3 c1; sleep 0.2; tail -c +4 c1 | head -c 40; sleep 0.2; tail -c +44 c1; } | $PIRASTEH ask -'
try 'ask: opens when allowed'     0 "$yes"$'\n'open '' '$PIRASTEH ask c1 && echo open'
try 'ask: shut when not allowed'  1 "$no" '' '$PIRASTEH ask c2 && echo open'
try 'ask: shut when refused'      3 'refused 7' '' '$PIRASTEH ask ownerless && echo open'
try 'ask: a name with a dash'     0 "$yes" '' '$PIRASTEH ask -- -dash'
try 'ask: a name with a space'    0 "$yes" '' '$PIRASTEH ask "with a space"'
try 'ask: a name not of UTF-8'    0 "$yes" '' "\$PIRASTEH ask \$'\\xff\\xfe'"

# why: the answer, the masks and the rights that were lost, worked out by hand
told() { # the four masks, in one word if they are all the same
    printf 'normal %s\nconfined %s\npolicy %s\ngranted %s\n' "$1" "${2:-$1}" "${3:-$1}" "${4:-$1}"
}
losses() { # step, and then each right as its bit and its name with dots
    local step=$1 right
    shift
    for right in "$@"; do
        right=${right//./ }
        printf 'lost 0x%08x %s: %s\n' "${right%% *}" "${right#* }" "$step"
    done
}
evaluation='normal evaluation'
zero=0x00000000
refused7=$(printf 'refused 7\n'; told $zero)
refused12=$(printf 'refused 12\n'; told $zero)
yes_why=$(echo "$yes"; told 0x00120089)
try 'why: nothing is lost'   0 "$yes_why" '' '$PIRASTEH why c1'
try 'why: to the list'       1 "$(echo "$no"; told 0x00020000
    losses "$evaluation" 0x1.read.data 0x8.read.extended.attributes 0x80.read.attributes 0x100000.synchronize
    )" '' '$PIRASTEH why c2'
try 'why: to a rule'         1 "$(echo 'granted 0x00000001 allowed no staged yes'
    told 0x00000003 0x00000003 0x00000001 0x00000001
    losses policy 0x2.write.data)" '' '$PIRASTEH why c7'
try 'why: to confinement'    1 "$(echo 'granted 0x00000000 allowed no staged no'
    told 0x00120089 $zero $zero $zero
    losses confinement 0x1.read.data 0x8.read.extended.attributes 0x80.read.attributes \
        0x20000.read.control 0x100000.synchronize)" '' '$PIRASTEH why c8'
try 'why: a privilege'       1 "$(echo 'granted 0x00000001 allowed no staged no'
    told 0x01000001 0x00000001 0x00000001 0x00000001
    losses confinement 0x1000000.access.system.security)" '' '$PIRASTEH why c9'
try 'why: to each step'      1 "$(echo 'granted 0x00000001 allowed no staged no'
    told 0x00000023 0x00000003 0x00000001 0x00000001
    losses policy 0x2.write.data
    losses confinement 0x20.execute
    losses "$evaluation" 0x10000.delete)" '' '$PIRASTEH why lost'
try 'why: all of a key'      1 "$(echo 'granted 0x00020019 allowed no staged no'
    told 0x00020019
    losses "$evaluation" 0x2.set.value 0x4.create.subkey 0x20.create.link 0x10000.delete 0x40000.write.dac \
        0x80000.write.owner 0x1000000.access.system.security)" '' '$PIRASTEH why key'
try 'why: all of a file'     1 "$(echo 'granted 0x00000000 allowed no staged no'
    told $zero
    losses "$evaluation" 0x1.read.data 0x2.write.data 0x4.append.data 0x8.read.extended.attributes \
        0x10.write.extended.attributes 0x20.execute 0x40.delete.child 0x80.read.attributes \
        0x100.write.attributes 0x10000.delete 0x20000.read.control 0x40000.write.dac 0x80000.write.owner \
        0x100000.synchronize 0x1000000.access.system.security)" '' '$PIRASTEH why file'
try 'why: refused'            3 "$refused7" '' '$PIRASTEH why ownerless'
try 'why: empty'              3 "$refused12" '' '$PIRASTEH why empty'
try 'why: 65,536 bytes'       0 "$yes_why" '' '$PIRASTEH why q65536'
try 'why: 65,537 bytes'       3 "$refused12" '' '$PIRASTEH why q65537'
try 'why: a pipe without end' 3 "$refused12" '' 'cat /dev/zero | $PIRASTEH why -'
try 'why: standard input'     0 "$yes_why" '' '$PIRASTEH why - <c1'
try 'why: opens when allowed' 0 "$yes_why"$'\n'open '' '$PIRASTEH why c1 && echo open'
try 'why: shut when refused'  3 "$refused7" '' '$PIRASTEH why ownerless && echo open'
try 'why: a name with a dash' 0 "$yes_why" '' '$PIRASTEH why -- -dash'
try 'ask: a file named why'   0 "$yes" '' 'cp c1 why; $PIRASTEH ask why'

# trail: the answer and the events, worked out by hand
event() { # source, entry, mask
    printf 'event source %d entry %d mask 0x%08x\n' "$1" "$2" "$3"
}
seen_trail=$(echo 'granted 0x00000001 allowed yes staged no'; event 0 1 0x1; event 1 0 0x10000000)
tried_trail=$(echo 'granted 0x00000000 allowed no staged no'; event 0 0 0x10000000; event 1 0 0x10000000)
try 'trail: allowed'            0 "$seen_trail" '' '$PIRASTEH trail opened'
try 'trail: not allowed'        1 "$tried_trail" '' '$PIRASTEH trail tried'
try 'trail: no event'           0 "$yes" '' '$PIRASTEH trail c1'
try 'trail: no event, a no'     1 "$no" '' '$PIRASTEH trail c2'
try 'trail: 4,090 events'       0 "$(echo 'granted 0x00000001 allowed yes staged no'
    seq -f 'event source 0 entry %.0f mask 0xffffffff' 0 4089)" '' '$PIRASTEH trail many'
try 'trail: refused'            3 'refused 7' '' '$PIRASTEH trail ownerless'
try 'trail: empty'              3 'refused 12' '' '$PIRASTEH trail empty'
try 'trail: 65,536 bytes'       0 "$yes" '' '$PIRASTEH trail q65536'
try 'trail: 65,537 bytes'       3 'refused 12' '' '$PIRASTEH trail q65537'
try 'trail: a pipe without end' 3 'refused 12' '' 'cat /dev/zero | $PIRASTEH trail -'
try 'trail: standard input'     0 "$seen_trail" '' '$PIRASTEH trail - <opened'
try 'trail: opens when allowed' 0 "$seen_trail"$'\n'open '' '$PIRASTEH trail opened && echo open'
try 'trail: shut when it is no' 1 "$tried_trail" '' '$PIRASTEH trail tried && echo open'
try 'trail: shut when refused'  3 'refused 7' '' '$PIRASTEH trail ownerless && echo open'
try 'trail: a name with a dash' 0 "$yes" '' '$PIRASTEH trail -- -dash'
try 'ask: a file named trail'   0 "$yes" '' 'cp c1 trail; $PIRASTEH ask trail'
try 'ask: of a trail, one line' 0 'granted 0x00000001 allowed yes staged no' '' '$PIRASTEH ask opened'

# input that cannot be read
try 'ask: missing'            2 '' 'pirasteh: nowhere: No such file or directory' '$PIRASTEH ask nowhere'
try 'ask: a folder'           2 '' 'pirasteh: folder: Is a directory' '$PIRASTEH ask folder'
try 'ask: input is a folder'  2 '' 'pirasteh: standard input: Is a directory' '$PIRASTEH ask - <folder'
try 'ask: input closed'       2 '' 'pirasteh: standard input: Bad file descriptor' '$PIRASTEH ask - <&-'
try 'ask: an empty name'      2 '' "pirasteh: '': No such file or directory" '$PIRASTEH ask ""'
try 'why: missing'            2 '' 'pirasteh: nowhere: No such file or directory' '$PIRASTEH why nowhere'
try 'trail: missing'          2 '' 'pirasteh: nowhere: No such file or directory' '$PIRASTEH trail nowhere'
try 'token: missing'          2 '' 'pirasteh: nowhere: No such file or directory' '$PIRASTEH token list nowhere'
try 'token: a folder'         2 '' 'pirasteh: folder: Is a directory' '$PIRASTEH token pack folder'

# output that cannot be written
try 'ask: output full'        2 '' 'pirasteh: standard output: No space left on device' '$PIRASTEH ask c1 >/dev/full'
try 'ask: output closed'      2 '' 'pirasteh: standard output: Bad file descriptor' '$PIRASTEH ask c1 >&-'
try 'ask: all closed'         2 '' '' '$PIRASTEH ask c1 <&- >&- 2>&-'
try 'ask: the reader is gone' 2 '' 'pirasteh: standard output: Broken pipe' \
    'mkfifo pipe; exec 3<>pipe 4>pipe 3<&-; $PIRASTEH ask c1 >&4'
try 'ask: a refusal lost'     2 '' 'pirasteh: standard output: *' '$PIRASTEH ask ownerless >/dev/full'
try 'why: output full'        2 '' 'pirasteh: standard output: No space left on device' '$PIRASTEH why lost >/dev/full'
try 'why: a refusal lost'     2 '' 'pirasteh: standard output: Bad file descriptor' '$PIRASTEH why ownerless >&-'
try 'trail: output full'      2 '' 'pirasteh: standard output: No space left on device' '$PIRASTEH trail opened >/dev/full'
try 'trail: full on the way'  2 '' 'pirasteh: standard output: File too large' \
    'trap "" XFSZ; ulimit -f 64; $PIRASTEH trail many >long'
try 'trail: a refusal lost'   2 '' 'pirasteh: standard output: Bad file descriptor' '$PIRASTEH trail ownerless >&-'
try 'token: output full'      2 '' 'pirasteh: standard output: No space left on device' '$PIRASTEH token list record >/dev/full'
try 'token: output closed'    2 '' 'pirasteh: standard output: Bad file descriptor' '$PIRASTEH token pack listing >&-'
try 'help: output full'       2 '' 'pirasteh: standard output: No space left on device' '$PIRASTEH --help >/dev/full'
try 'version: output closed'  2 '' 'pirasteh: standard output: Bad file descriptor' '$PIRASTEH --version >&-'

# token
try 'token: list'             0 '' '' '$PIRASTEH token list record >made'
same 'token: list' made listing
try 'token: pack'             0 '' '' '$PIRASTEH token pack - <listing >made'
same 'token: pack' made record
try 'token: there and back'   0 '' '' 'set -o pipefail; $PIRASTEH token list record | $PIRASTEH token pack - >made'
same 'token: there and back' made record
try 'token: list refused'     3 '' 'refused 3' '$PIRASTEH token list bad'
try 'token: pack refused'     3 '' 'refused 3' '$PIRASTEH token pack bad'
try 'token: empty'            3 '' 'refused 3' '$PIRASTEH token list empty'
try 'token: too long'         3 '' 'refused 3' '$PIRASTEH token list q65537'
try 'token: without end'      3 '' 'refused 3' 'cat /dev/zero | $PIRASTEH token pack -'
try 'token: nowhere to say'   3 '' '' '$PIRASTEH token list bad 2>&-'

# usage
for words in '' 'answer c1' 'ask' 'ask c1 c2' 'ask why c1' 'why' 'why c1 c2' 'why -x c1' \
    'trail' 'trail c1 c2' 'trail -x c1' 'ask trail c1' 'why trail c1' 'token' 'token list' 'token turn record' \
    'token list record listing' '-x' 'ask -x c1' '--helpless' 'token --all list record'; do
    try "usage: pirasteh $words" 2 '' 'pirasteh: *usage: pirasteh *' "\$PIRASTEH $words"
done
version=$(sed -n '/^\[workspace.package\]/,/^$/s/^version = "\(.*\)"$/\1/p' "$root/Cargo.toml")
try 'version' 0 "pirasteh $version"$'\n''an unproved shell over the proved library' '' '$PIRASTEH --version'
for words in '--help' '-h' 'ask --help' 'why -h' 'trail --help' 'token list -h'; do
    try "help: $words" 0 '0 0 0' '' "\$PIRASTEH $words >text; for word in 'an unproved shell over the proved library' 'answered, and not allowed' '  12  '; do grep -qF -- \"\$word\" text; echo \$?; done | paste -sd' '"
done

# The proved programs: the same lines; their exit status does not say what they answered, and is 0.
run_here() { [ -x "$bin/$1" ] && "$bin/ask" c1 >/dev/null 2>&1; }
if run_here ask && run_here token; then
    export ASK=$bin/ask TOKEN=$bin/token
    try 'program ask: a file'          0 "$yes" '' '$ASK c1'
    try 'program ask: no argument'     0 "$yes" '' '$ASK <c1'
    try 'program ask: -'               0 "$no" '' '$ASK - <c2'
    try 'program ask: refused'         0 'refused 7' '' '$ASK ownerless'
    try 'program ask: 65,536 bytes'    0 "$yes" '' 'cat q65536 | $ASK -'
    try 'program ask: 65,537 bytes'    0 'refused 12' '' '$ASK q65537'
    try 'program ask: missing'         0 '' 'nowhere: No such file or directory' '$ASK nowhere'
    try 'program ask: a folder'        0 '' 'folder: Is a directory' '$ASK folder'
    try 'program ask: output full'     0 '' 'standard output: No space left on device' '$ASK c1 >/dev/full'
    try 'program ask: output closed'   0 '' 'standard output: Bad file descriptor' '$ASK c1 >&-'
    try 'program ask: usage'           0 '' 'usage: ask *' '$ASK c1 c2'
    try 'program ask: why'             0 "$yes_why" '' '$ASK why c1'
    try 'program ask: why -'           0 "$yes_why" '' '$ASK why - <c1'
    try 'program ask: why, refused'    0 "$refused7" '' '$ASK why ownerless'
    try 'program ask: why, missing'    0 '' 'nowhere: No such file or directory' '$ASK why nowhere'
    try 'program ask: why, full'       0 '' 'standard output: No space left on device' '$ASK why c1 >/dev/full'
    try 'program ask: a file why'      0 "$no" '' 'cp c2 why; $ASK why'
    try 'program ask: why, usage'      0 '' 'usage: ask *' '$ASK why c1 c2'
    try 'program ask: trail'           0 "$seen_trail" '' '$ASK trail opened'
    try 'program ask: trail -'         0 "$tried_trail" '' '$ASK trail - <tried'
    try 'program ask: trail, none'     0 "$no" '' '$ASK trail c2'
    try 'program ask: trail, refused'  0 'refused 7' '' '$ASK trail ownerless'
    try 'program ask: trail, missing'  0 '' 'nowhere: No such file or directory' '$ASK trail nowhere'
    try 'program ask: trail, full'     0 '' 'standard output: No space left on device' '$ASK trail opened >/dev/full'
    try 'program ask: a file trail'    0 "$no" '' 'cp c2 trail; $ASK trail'
    try 'program ask: trail, usage'    0 '' 'usage: ask *' '$ASK trail c1 c2'
    try 'program ask: another word'    0 '' 'usage: ask *' '$ASK answer c1'
    try 'program token: list'          0 '' '' '$TOKEN list record >made'
    same 'program token: list' made listing
    try 'program token: pack -'        0 '' '' '$TOKEN pack - <listing >made'
    same 'program token: pack -' made record
    try 'program token: refused'       0 '' 'refused 3' '$TOKEN list bad'
    try 'program token: output full'   0 '' 'standard output: No space left on device' '$TOKEN list record >/dev/full'
    try 'program token: output closed' 0 '' 'standard output: Bad file descriptor' '$TOKEN pack listing >&-'
    try 'program token: usage'         0 '' 'usage: token *' '$TOKEN list'
    programs=yes
else
    echo "  the programs ask and token are not built, or do not run on this processor: left out"
    programs=no
fi

# Every vector: the line, the status, and the very bytes that the proved programs print.
status_of() { # line
    case $1 in
        refused*) echo 3 ;;
        *' allowed yes '*) echo 0 ;;
        *) echo 1 ;;
    esac
}

ask_vector() { # question, line
    local line status
    bytes "$1" >question
    line=$("$PIRASTEH" ask question)
    status=$?
    [ "$line" = "$2" ] || fail "a vector" "printed \`$line\`, expected \`$2\` for $1"
    [ "$status" -eq "$(status_of "$2")" ] || fail "a vector" "status $status for the line \`$line\`"
    if [ $programs = yes ]; then
        "$PIRASTEH" ask question >output 2>stderr
        "$ASK" question >output-too 2>stderr-too
        cmp -s output output-too && cmp -s stderr stderr-too ||
            fail "a vector" "pirasteh and ask print otherwise for $1"
    fi
}

# The bits that an answered question asks for, from the digits of its file: the kind in one byte, the
# mask in sevens, its generic bits by the kind's row of the table of rights, and the maximum.
asked_by() { # digits
    local rights=(0 0x120089 0x120116 0x1200a0 0x1f01ff) at=2 shift=0 mask=0 byte asked bit
    [ "${1:0:2}" = 01 ] || rights=(0 0x20019 0x20006 0x20019 0xf003f)
    while byte=$((16#${1:at:2})); do
        mask=$((mask | (byte & 127) << shift)) at=$((at + 2)) shift=$((shift + 7))
        [ "$byte" -ge 128 ] || break
    done
    asked=$((mask & 0x0dffffff))
    for bit in 1 2 3 4; do
        [ $((mask & (0x100000000 >> bit))) -eq 0 ] || asked=$((asked | rights[bit]))
    done
    [ $((mask & 0x02000000)) -eq 0 ] || asked=$((asked | rights[4]))
    echo "$asked"
}

# The four masks, each within the one before; of every bit that was asked and is not granted a line,
# with the step that the masks tell; and no such line of a refused question.
why_vector() { # digits, line, masks (nothing if refused): of the question that was asked last
    local asked=0
    [[ $2 == refused* ]] || asked=$(asked_by "$1")
    shift
    local line last=0 step masks=${2:-$zero $zero $zero $zero} status
    local -A lost=([evaluation]=0 [confinement]=0 [policy]=0)
    [[ ($1 == refused* && -z $2) || ($1 != refused* && -n $2) ]] || fail "a vector" "\`$1\` with the masks \`$2\`"
    "$PIRASTEH" why question >output 2>stderr
    status=$?
    [ "$status" -eq "$(status_of "$1")" ] || fail "a vector" "why: status $status for the line \`$1\`"
    head -n 5 output >five
    # No process substitution here: where process numbers come round, bash takes the status of such a
    # one, long over, for that of a command.
    tail -n +6 output >behind
    # shellcheck disable=SC2086
    (echo "$1" && told $masks) | cmp -s - five || fail "a vector" "why printed \`$(cat five)\`, expected \`$1\`, $masks"
    while IFS= read -r line; do
        [[ $line =~ ^'lost '(0x[0-9a-f]{8})' '[a-z\ ]+': '(normal evaluation|confinement|policy)$ ]] &&
            [ $((BASH_REMATCH[1] & (BASH_REMATCH[1] - 1))) -eq 0 ] && [ $((BASH_REMATCH[1])) -gt "$last" ] ||
            fail "a vector" "why printed \`$line\` behind the bit $last"
        last=$((BASH_REMATCH[1])) step=${BASH_REMATCH[2]##* }
        lost[$step]=$((${lost[$step]} | last))
    done <behind
    # shellcheck disable=SC2086
    set -- $masks
    [ $(( ($1 & ~asked) | ($2 & ~$1) | ($3 & ~$2) | ($3 ^ $4) )) -eq 0 ] &&
        [ "${lost[evaluation]} ${lost[confinement]} ${lost[policy]}" = "$((asked & ~$1)) $(($1 & ~$2)) $(($2 & ~$3))" ] ||
        fail "a vector" "why: the steps of the lost rights are not those of the masks $masks"
    if [ $programs = yes ]; then
        "$ASK" why question >output-too 2>stderr-too
        cmp -s five output-too && cmp -s stderr stderr-too ||
            fail "a vector" "pirasteh why and ask why print otherwise for the line \`$(head -n 1 five)\`"
    fi
}

# The events of a trail, from its digits: of each the three numbers in sevens.
events_of() { # digits
    local digits byte value=0 shift=0 numbers=()
    [ -n "$1" ] || return 0
    while IFS= read -r digits; do
        byte=$((16#$digits))
        value=$((value | (byte & 127) << shift)) shift=$((shift + 7))
        [ "$byte" -ge 128 ] || { numbers+=("$value") && value=0 shift=0; }
    done <<<"$(fold -w 2 <<<"$1")"
    printf 'event source %d entry %d mask 0x%08x\n' "${numbers[@]}"
}

# The line, and the events of the trail and no others; a refused question has none.
trail_vector() { # line, trail (nothing if it is empty): of the question that was asked last
    local status
    [[ $1 != refused* || -z $2 ]] || fail "a vector" "\`$1\` with the trail \`$2\`"
    "$PIRASTEH" trail question >output 2>stderr
    status=$?
    [ "$status" -eq "$(status_of "$1")" ] || fail "a vector" "trail: status $status for the line \`$1\`"
    (echo "$1" && events_of "$2") | cmp -s - output ||
        fail "a vector" "trail printed \`$(cat output)\`, expected \`$1\` and the events of \`$2\`"
    if [ $programs = yes ]; then
        "$ASK" trail question >output-too 2>stderr-too
        cmp -s output output-too && cmp -s stderr stderr-too ||
            fail "a vector" "pirasteh trail and ask trail print otherwise for the line \`$1\`, trail \`$2\`"
    fi
}

token_vector() { # list or pack, input, expected bytes or a refusal number
    local status
    bytes "$2" >input
    "$PIRASTEH" token "$1" input >output 2>stderr
    status=$?
    if [[ $3 == refused* ]]; then
        [ "$status $(cat stderr) $(wc -c <output)" = "3 $3 0" ] || fail "a vector" "token $1: $(cat stderr) for $2"
    else
        bytes "$3" >expected
        [ "$status" -eq 0 ] && cmp -s output expected || fail "a vector" "token $1 makes other bytes of $2"
    fi
    if [ $programs = yes ]; then
        "$TOKEN" "$1" input >output-too 2>stderr-too
        cmp -s output output-too && cmp -s stderr stderr-too ||
            fail "a vector" "pirasteh and token print otherwise for $2"
    fi
}

vectors=0
declare -A field=()
case_ends() {
    [ ${#field[@]} -eq 0 ] && return
    vectors=$((vectors + 1))
    if [ -n "${field[ask]+.}" ]; then
        ask_vector "${field[ask]}" "${field[line]}"
        why_vector "${field[ask]}" "${field[line]}" "${field[masks]-}"
        trail_vector "${field[line]}" "${field[trail]-}"
    elif [ -n "${field[refused]+.}" ]; then
        if [ -n "${field[record]+.}" ]; then
            token_vector list "${field[record]}" "refused ${field[refused]}"
        else
            token_vector pack "${field[listing]}" "refused ${field[refused]}"
        fi
    else
        token_vector list "${field[record]}" "${field[listing]}"
        token_vector pack "${field[listing]}" "${field[record]}"
    fi
    field=()
}
for file in "$root"/tests/vectors/*.txt; do
    while IFS= read -r text || [ -n "$text" ]; do
        case $text in
            '#'*) ;;
            '') case_ends ;;
            *) field[${text%% *}]=${text#* = } ;;
        esac
    done <"$file"
    case_ends
done
[ "$vectors" -gt 0 ] || fail vectors 'there are none'
echo "command: $count cases and $vectors vectors, $failures failures"
[ "$failures" -eq 0 ]
