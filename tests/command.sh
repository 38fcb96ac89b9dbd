#!/usr/bin/env bash
# Tries the command, plan.sh and the build: every example, every refusal with its words, every way of failing to read or write, help,
# version and installation. The archive and the program are built before. Each case is counted, and the count is a stored one.
set -uo pipefail
cd "$(dirname "${BASH_SOURCE[0]}")/.."
tools/build.sh command || exit 1
# Outside the checkout, where the gate refuses links and a second crates.txt.
room="$(mktemp -d)"
trap 'rm -rf "$room"' EXIT
command="$PWD/target/command/gowashiru"
count=0

fail() {
    echo "command: $1" >&2
    echo "  its standard output: $(head -c 300 "$room/out")" >&2
    echo "  its standard error: $(head -c 600 "$room/err")" >&2
    exit 1
}

# Runs a command, which must end by itself with this status. Standard input is as it is given.
try() { # STATUS WORDS...
    local status=$1 got
    shift
    tried="$*"
    timeout 60 "$@" >"$room/out" 2>"$room/err"
    got=$?
    count=$((count + 1))
    [ "$got" -eq "$status" ] || fail "status $got, not $status: $tried"
}

prints() { # FILE
    cmp -s "$room/out" "$1" || fail "does not print what is in $1: $tried"
}

prints_line() {
    [ "$(cat "$room/out")" = "$1" ] || fail "does not print '$1': $tried"
}

prints_nothing() {
    [ ! -s "$room/out" ] || fail "prints something: $tried"
}

says() { # TEXT...
    local text
    for text; do
        grep -qF -- "$text" "$room/err" || fail "does not say '$text': $tried"
    done
}

says_nothing() {
    [ ! -s "$room/err" ] || fail "says something: $tried"
}

# A refusal: status 1, nothing on standard output, and the place and number in its first line.
refused() { # NUMBER FILE PLACE WORDS...
    local number=$1 file=$2 place=$3
    shift 3
    try 1 "$@"
    prints_nothing
    [[ "$(head -1 "$room/err")" == "$file:$place: "*"(refusal $number): "* ]] || fail "not refused with $number at $file:$place: $tried"
}

# A case that needs a tool which this machine lacks is told and counted.
without() { # TOOL CASE
    echo "command: no $1 here, so not tried: $2" >&2
    count=$((count + 1))
}

# A terminal on standard input gets a hint, and is read.
at_terminal() { # COMMAND KIND FILE
    if ! command -v script >/dev/null; then
        without script "$1 at a terminal"
        return
    fi
    try 0 script -qec "$1" /dev/null < <(cat "$3"; sleep 1; printf '\004')
    grep -q "reading a $2 from the terminal; end it with Ctrl-D" "$room/out" || fail "no hint at a terminal: $tried"
}

# What is quoted for a circuit: the lines and the bytes of what plan prints, and this price.
quotes() { # CIRCUIT PRICE
    try 0 "$command" plan "$1" -o "$room/planned"
    try 0 "$command" quote "$1"
    says_nothing
    prints <(printf 'lines\t%d\nbytes\t%d\nprice\t%d\n' "$(wc -l <"$room/planned")" "$(wc -c <"$room/planned")" "$2")
}

# What plan refuses is refused by quote at the same place and in the same words.
quote_is_refused() { # NUMBER FILE PLACE, after plan
    cp "$room/err" "$room/said"
    refused "$1" "$2" "$3" "$command" quote "$2"
    cmp -s "$room/err" "$room/said" || fail "does not say what plan says: $tried"
}

# What stands beside a schedule: a line for each value, and the peak.
try_live() { # SCHEDULE TABLE
    try 0 "$command" live "$1"
    says_nothing
    prints <(grep -v '^peak' "$2")
    try 0 "$command" live-peak "$1"
    says_nothing
    prints_line "$(sed -n 's/^peak\t//p' "$2")"
}

# ---- Every example

try_circuit() { # NAME
    local word number place
    read -r word number place <"$1.plan"
    if [ "$word" = refused ]; then
        refused "$number" "$1.circuit" "$place" "$command" plan "$1.circuit"
        cmp -s "$1.plan" "$1.quote" || fail "not the plan's refusal: $1.quote"
        quote_is_refused "$number" "$1.circuit" "$place"
    else
        try 0 "$command" plan "$1.circuit"
        prints "$1.plan"
        try 0 "$command" plan <"$1.circuit"
        prints "$1.plan"
        try 0 "$command" check - "$1.plan" <"$1.circuit"
        prints_line passed
        try 0 "$command" erase "$1.plan"
        prints "$1.circuit"
        quotes "$1.circuit" "$(sed -n 's/^price\t//p' "$1.quote")"
        prints "$1.quote"
        try 0 "$command" quote <"$1.circuit"
        prints "$1.quote"
        try_picture "$1.plan"
        goes_out_and_back "$1.plan"
        try_live "$1.plan" "$1.plan.live"
    fi
    try 0 "$command" least-level "$1.circuit"
    prints_line "$(cut -f 2 "$1.least")"
}

# Every line of a schedule is drawn, and the text is whole.
try_picture() { # SCHEDULE
    try 0 "$command" picture "$1"
    says_nothing
    [[ "$(head -c 4 "$room/out")" == "<svg" || "$(head -c 5 "$room/out")" == "<?xml" ]] || fail "no SVG: $tried"
    [ "$(tail -n 1 "$room/out")" = "</svg>" ] || fail "no whole SVG: $tried"
}

# A schedule that keeps the rules becomes a listing, and the listing that schedule.
goes_out_and_back() { # SCHEDULE
    try 0 "$command" to-rising "$1" -o "$room/listing"
    prints_nothing
    try 0 "$command" from-rising "$room/listing"
    prints "$1"
}

try_schedule() { # NAME
    local word number file place circuit="${1%.*}.circuit"
    read -r word number file place <"$1.check"
    if [ "$word" = refused ]; then
        [ "$file" = 1 ] && file="$circuit" || file="$1.schedule"
        refused "$number" "$file" "$place" "$command" check "$circuit" "$1.schedule"
    else
        try 0 "$command" check "$circuit" "$1.schedule"
        prints_line passed
        try_picture "$1.schedule"
        goes_out_and_back "$1.schedule"
    fi
    try 0 "$command" erase "$1.schedule"
    prints "$1.erasure"
    try_live "$1.schedule" "$1.live"
}

try_listing() { # NAME
    local word number place
    read -r word number place <"$1.from_rising"
    if [ "$word" = refused ]; then
        refused "$number" "$1.rising" "$place" "$command" from-rising "$1.rising"
        return
    fi
    try 0 "$command" from-rising "$1.rising"
    prints "$1.from_rising"
    try 0 "$command" from-rising <"$1.rising"
    prints "$1.from_rising"
    try 0 "$command" check "${1%.*}.circuit" "$1.from_rising"
    prints_line passed
    try_picture "$1.from_rising"
}

try_outgoing() { # NAME
    local word number place
    read -r word number place <"$1.to_rising"
    if [ "$word" = refused ]; then
        refused "$number" "$1.schedule" "$place" "$command" to-rising "$1.schedule"
        return
    fi
    try 0 "$command" to-rising <"$1.schedule"
    prints "$1.to_rising"
}

for circuit in examples/*.circuit; do try_circuit "${circuit%.circuit}"; done
for schedule in examples/*.schedule; do try_schedule "${schedule%.schedule}"; done
for listing in examples/*.rising; do try_listing "${listing%.rising}"; done
for listing in examples/*.to_rising; do try_outgoing "${listing%.to_rising}"; done

# ---- Every refusal. A file is given as a format of printf.

c="$room/c.circuit"
s="$room/s.schedule"
l="$room/l.listing"

plan_says() { # NUMBER PLACE CIRCUIT TEXT...
    local number=$1 place=$2
    printf "$3" >"$c"
    shift 3
    refused "$number" "$c" "$place" "$command" plan "$c"
    says "$@"
    quote_is_refused "$number" "$c" "$place"
}

picture_says() { # NUMBER PLACE SCHEDULE TEXT...
    local number=$1 place=$2
    printf "$3" >"$s"
    shift 3
    refused "$number" "$s" "$place" "$command" picture "$s"
    says "$@"
}

from_rising_says() { # NUMBER PLACE LISTING TEXT...
    local number=$1 place=$2
    printf "$3" >"$l"
    shift 3
    refused "$number" "$l" "$place" "$command" from-rising "$l"
    says "$@"
}

to_rising_says() { # NUMBER PLACE SCHEDULE TEXT...
    local number=$1 place=$2
    printf "$3" >"$s"
    shift 3
    refused "$number" "$s" "$place" "$command" to-rising "$s"
    says "$@"
}

check_says() { # NUMBER FILE PLACE CIRCUIT SCHEDULE TEXT...
    local number=$1 file=$2 place=$3
    printf "$4" >"$c"
    printf "$5" >"$s"
    shift 5
    refused "$number" "$file" "$place" "$command" check "$c" "$s"
    says "$@"
}

lines() { # COUNT LINE
    local i
    for ((i = 0; i < $1; i++)); do printf '%s' "$2"; done
}

h='circuit\t60\t20\t2\n'
plan_says 1 1 '' 'The file is empty' '`circuit F W L`'
plan_says 1 1 'circuit 60 20 2\nin\n' 'circuit 60 20 2' 'A space stands in the line' 'one tab' "tr ' ' '\t'"
plan_says 1 1 '\xef\xbb\xbf'"$h" '\xEF\xBB\xBFcircuit\t60' 'byte order mark'
plan_says 1 1 '\xff\xfec\0' 'UTF-16' 'byte order mark'
plan_says 1 1 'circuit\t60\t20\t2\r\nin\r\n' 'circuit\t60\t20\t2\r' 'A carriage return stands in the line' "tr -d '\r'"
plan_says 1 3 "$h"'in\nneg\t0' 'neg\t0' 'The last line is not closed'
plan_says 1 3 "$h"'in\n\0' 'ends in a NUL byte'
! grep -q 'not closed' "$room/err" || fail "asks for a line feed where there is one: $tried"
plan_says 1 3 "$h"'in\nneg\t0\0' 'ends in a NUL byte' 'The last line is not closed'
plan_says 1 3 "$h"'in\nneg\0\t0\n' 'neg\x00\t0' 'A NUL byte stands in the line'
plan_says 1 1 '# a comment\n' 'There are no comments'
plan_says 1 2 "$h"'\nin\n' 'The line is empty'
plan_says 1 3 "$h"'in\nmull\t0\t0\n' 'mull is no word of a circuit. Its words are in, const, neg, rot, add, mul, out.'
plan_says 1 2 "$h"'\x1b[31m\n' '\x1B[31m is no word'
plan_says 1 3 "$h"'in\nrs\t0\t1\n' '`rs A C` stands in no circuit'
plan_says 1 3 "$h"'in\nds\t0\n' '`ds A` stands in no circuit'
plan_says 1 1 'rising\t60\t20\t2\n' 'This is a listing, and a circuit is wanted here' '`gowashiru from-rising` makes a schedule of it'
plan_says 1 3 "$h"'in\nmul\t0\t0\t0\n' '`mul A B` has 2 numbers after the word, and here are 3.'
plan_says 1 3 "$h"'in\nmul\t0\n' 'and here is 1.'
plan_says 1 3 "$h"'in\nmul\t0\t\t0\n' 'A field is empty'
plan_says 1 2 "$h"'in\t\n' 'A field is empty'
plan_says 1 2 "$h"'const\t007\n' '007 is no number'
plan_says 1 2 "$h"'const\t0.5\n' '0.5 is no number' 'K is the number under which the host keeps the constant'
plan_says 1 2 "$h"'\tin\n' 'The line begins with a tab: take it out.'
plan_says 1 3 "$h"'in\ncircuit\t60\t20\t2\n' 'A header stands in the first line alone'
plan_says 1 3 "$h"'in\nrot\t0\t-0\n' '-0 is no number'
plan_says 1 3 "$h"'in\nrot\t-1\t0\n' '-1 is no number'
plan_says 1 2 "$h"'const\t123456789012\n' '123456789012 is no number' 'at most 11 bytes'
plan_says 1 1 'circuit\t60\t20\n' '`circuit F W L` has 3 numbers after the word, or 4 with the headroom H, and here are 2.'
plan_says 1 1 'circuit\t60\t+20\t2\n' '+20 is no number'
plan_says 1 1 'schedule\t60\t20\t2\n' 'This is a schedule, and a circuit is wanted here: `gowashiru erase` makes one'
plan_says 1 1 'in\n' 'The first line is the header, `circuit F W L`'
plan_says 2 1 'circuit\t61\t20\t0\n' 'header number outside its range' 'circuit 61 20 0' 'F = 61' 'L = 0' 'from 1 to 60'
plan_says 3 258 "$h$(lines 257 'in\n')" 'more lines than allowed' 'at most 256 lines'
plan_says 4 2 "$h"'neg\t0\n' 'operand names no usable earlier line' 'A = 0' 'none before it'
plan_says 4 3 "$h"'in\nadd\t0\t1\n' 'B = 1: this line is value 1' 'from 0 to 0'
plan_says 4 4 "$h"'in\nout\t0\nmul\t1\t5\n' 'A = 1: line 3 is an `out` line' 'Name what it names, 0.' 'B = 5'
plan_says 5 4 "$h"'in\nconst\t5\nneg\t1\n' 'operand of the wrong kind' 'A = 1 is a constant, line 3: const 5' '`neg` takes a ciphertext'
plan_says 5 4 "$h"'in\nconst\t5\nmul\t1\t1\n' '`mul` takes two ciphertexts, or a ciphertext and a constant.'
plan_says 6 4 'circuit\t60\t20\t1\nin\nmul\t0\t0\nmul\t1\t1\n' 'too few levels (refusal 6): mul 1 1' 'This circuit fits from L = 2 on, the third number of its header'
plan_says 6 3 'circuit\t1\t60\t60\nin\nmul\t0\t0\n' 'fits at no L from 1 to 60' 'line 3'
plan_says 11 3 "$h"'in\nrot\t0\t-32768\n' 'number outside its range' 'T = -32768' 'from -32767 to 32767'
plan_says 11 2 "$h"'const\t4294967296\n' 'K = 4294967296' 'from 0 to 4294967295'
plan_says 11 2 "$h"'const\t99999999999\n' 'K = 99999999999' 'from 0 to 4294967295'
plan_says 1 2 "$h"'const\t100000000000\n' '100000000000 is no number: it has 12 digits' 'at most 11 bytes' 'the constant, 0 to 4294967295'
plan_says 1 2 "$h"'const\t4294967295.0\n' '4294967295.0 is no number: digits' 'no point'
# In the first field a number that is too large does not hide a second field that is none; a range comes before an operand.
plan_says 1 3 "$h"'in\nrot\t99999999999\t100000000000\n' '100000000000 is no number'
plan_says 11 3 "$h"'in\nrot\t4294967296\t32768\n' 'T = 32768'
# Numbers that 16 or 32 bits would take for small ones.
plan_says 11 3 "$h"'in\nrot\t0\t65537\n' 'T = 65537'
plan_says 11 3 "$h"'in\nrot\t0\t4294967297\n' 'T = 4294967297'
plan_says 11 3 "$h"'in\nrot\t0\t-4294967295\n' 'T = -4294967295'
plan_says 4 3 "$h"'in\nneg\t65536\n' 'A = 65536: this line is value 1'
plan_says 4 3 "$h"'in\nmul\t0\t4294967296\n' 'B = 4294967296: this line is value 1'
plan_says 2 1 'circuit\t65596\t4294967316\t2\n' 'F = 65596' 'W = 4294967316'
plan_says 5 3 "$h"'const\t4294967295\nneg\t0\n' 'A = 0 is a constant, line 2: const 4294967295'
printf 'circuit\t1\t60\t60\nin\nmul\t0\t0\n' >"$c"
refused 6 "$c" 3 "$command" least-level "$c"
says 'fits at no L from 1 to 60'

h='schedule\t60\t20\t2\n'
picture_says 1 1 'circuit\t60\t20\t2\n' 'This is a circuit, and a schedule is wanted here: `gowashiru plan` makes one'
picture_says 1 3 "$h"'in\nsub\t0\t0\n' 'sub is no word of a schedule' 'out, enc, rs, ms, us.'
picture_says 3 258 "$h$(lines 257 'in\n')" 'this is the 257th'
picture_says 5 4 "$h"'in\nconst\t1\nmul\t0\t1\n' 'B = 1 is a constant' 'an encoded constant: `enc A S E` encodes'
picture_says 5 3 "$h"'in\nenc\t0\t20\t1\n' '`enc` takes a constant.'
picture_says 5 5 "$h"'in\nconst\t1\nenc\t1\t20\t1\nneg\t2\n' 'A = 2 is an encoded constant'
picture_says 7 4 "$h"'in\nms\t0\t1\nmul\t0\t1\n' 'levels differ' 'Value 0 (line 2) has scale 20 and level 2.' \
    'Value 1 (line 3) has scale 20 and level 1.' 'Bring both to one level'
picture_says 8 4 "$h"'in\nus\t0\t15\nadd\t0\t1\n' 'scales differ in add' 'Value 1 (line 3) has scale 35 and level 2.' \
    'Raise value 0 by 15 bits'
picture_says 7 6 "$h"'in\nconst\t1\nenc\t1\t20\t2\nms\t0\t1\nmul\t3\t2\n' 'Value 2 is an encoded constant: encode it at level E = 1'
picture_says 8 6 "$h"'in\nconst\t1\nmul\t0\t0\nenc\t1\t20\t2\nadd\t2\t3\n' 'Value 3 is an encoded constant: encode it at scale S = 40'
picture_says 9 4 'schedule\t60\t20\t1\nin\nus\t0\t21\nmul\t0\t1\n' 'scale above the modulus' \
    'Value 1 (line 3) has scale 41 and level 1.' 'This line would have scale 61 and level 1' 'F*level = 60 bits'
picture_says 9 2 'schedule\t59\t60\t1\nin\n' 'An input has scale W and level L'
picture_says 9 3 "$h"'const\t1\nenc\t0\t61\t1\n' 'Encode at a smaller scale S or at a higher level E.'
picture_says 9 3 "$h"'in\nus\t0\t101\n' 'This line would have scale 121 and level 2' 'Raise it by less'
picture_says 9 3 "$h"'in\nms\t0\t3\n' 'This line would have scale 20 and level -1'
picture_says 10 4 "$h"'in\nus\t0\t59\nrs\t1\t1\n' 'scale below the waterline' 'Value 1 (line 3) has scale 79 and level 2.' \
    'This line would have scale 19 and level 1; the waterline W is 20' 'Raise the scale with `us` before'
picture_says 10 4 "$h"'in\nus\t0\t100\nrs\t1\t2\n' 'The lowest level is 1: give up fewer levels'
picture_says 10 3 "$h"'const\t1\nenc\t0\t19\t1\n' 'Encode at a scale S of at least W.'
picture_says 11 3 "$h"'const\t1\nenc\t0\t20\t3\n' 'E = 3' "from 1 to 2, the header's L"
picture_says 11 2 "$h"'const\t4294967296\n' 'K = 4294967296' 'from 0 to 4294967295'
picture_says 1 2 "$h"'const\t100000000000\n' '100000000000 is no number: it has 12 digits'
picture_says 11 3 "$h"'const\t1\nenc\t0\t4294967316\t65537\n' 'S = 4294967316' 'E = 65537'
picture_says 11 3 "$h"'in\nrs\t0\t4294967297\n' 'C = 4294967297' 'from 1 to 60'
picture_says 10 3 "$h"'const\t4294967295\nenc\t0\t19\t1\n' 'This line would have scale 19 and level 1' 'Encode at a scale S of at least W.'
picture_says 8 6 "$h"'const\t4294967295\nin\nmul\t1\t1\nenc\t0\t20\t2\nadd\t2\t3\n' 'Value 3 is an encoded constant: encode it at scale S = 40'
lines 1793 'in
' | cat <(printf "$h") - >"$s"
printf 'circuit\t60\t20\t2\nin\n' >"$c"
refused 3 "$s" 1794 "$command" check "$c" "$s"
says 'at most 1,792 lines'

h='circuit\t60\t20\t2\n'
check_says 12 "$c" 1 "$h"'in\n' 'schedule\t60\t20\t3\nin\n' 'erases to another circuit (refusal 12): circuit 60 20 2' \
    "$s:1: erases to: circuit 60 20 3" "F, W and L have to be the circuit's, and so has H"
check_says 12 "$c" 3 "$h"'in\nneg\t0\n' 'schedule\t60\t20\t2\nin\nus\t0\t5\nout\t1\n' ': neg 0' "$s:4: erases to: out 0"
check_says 12 "$c" 3 "$h"'in\nneg\t0\n' 'schedule\t60\t20\t2\nin\nus\t0\t5\n' ': neg 0' "$s erases to a circuit that ends before this line."
check_says 12 "$c" 3 "$h"'in\n' 'schedule\t60\t20\t2\nin\nneg\t0\n' 'the file ends before this line' "$s:3: erases to: neg 0"
check_says 12 "$c" 3 "$h"'in\n' "schedule\t60\t20\t2\n$(lines 257 'in\n')" 'keeps more lines than a circuit may have'
check_says 1 "$c" 1 'schedule\t60\t20\t2\n' 'circuit\t60\t20\t2\n' 'a circuit is wanted here'
check_says 1 "$s" 2 "$h" 'schedule\t60\t20\t2\nin 0\n' 'A space stands'
check_says 8 "$s" 4 "$h"'in\nadd\t0\t0\n' 'schedule\t60\t20\t2\nin\nus\t0\t5\nadd\t0\t1\n' 'Raise value 0 by 5 bits'
check_says 12 "$c" 2 "$h"'const\t4294967295\n' 'schedule\t60\t20\t2\nconst\t65535\n' ': const 4294967295' "$s:2: erases to: const 65535"
check_says 12 "$c" 2 "$h"'const\t0\n' 'schedule\t60\t20\t2\nconst\t65536\n' ': const 0' "$s:2: erases to: const 65536"
check_says 11 "$s" 2 "$h"'const\t0\n' 'schedule\t60\t20\t2\nconst\t4294967296\n' 'K = 4294967296'

# ---- Refusals of listings in the rising-level dialect, and of schedules that become one

h='rising\t60\t20\t2\n'
from_rising_says 1 1 '' 'The file is empty' '`rising F W L`'
from_rising_says 1 1 'schedule\t60\t20\t2\n' 'This is a schedule, and a listing is wanted here: `gowashiru to-rising` makes one'
from_rising_says 1 1 'circuit\t60\t20\t2\n' 'This is a circuit, and a listing is wanted here: `gowashiru plan` makes a schedule of it'
from_rising_says 1 1 'in\n' 'The first line is the header, `rising F W L`'
from_rising_says 1 1 'rising\t60\t20\n' '`rising F W L` has 3 numbers'
from_rising_says 1 3 "$h"'in\nsub\t0\n' 'sub is no word of a listing' 'rs, ms, us, ds.'
from_rising_says 1 3 "$h"'in\nds\t0\t1\n' '`ds A` has 1 number after the word, and here are 2.'
from_rising_says 1 3 "$h"'in\nds\n' 'and here are 0.'
from_rising_says 1 3 "$h"'in\nds\t-1\n' '-1 is no number'
from_rising_says 1 3 "$h"'in\nds 0\n' 'A space stands in the line'
from_rising_says 1 3 "$h"'in\nds\t0' 'The last line is not closed'
from_rising_says 1 3 "$h"'in\nrising\t60\t20\t2\n' 'A header stands in the first line alone'
from_rising_says 1 4 "$h"'in\nconst\t1\nenc\t1\t20\t-1\n' '-1 is no number'
from_rising_says 2 1 'rising\t61\t20\t0\n' 'header number outside its range' 'F = 61' 'L = 0' 'from 1 to 60'
from_rising_says 4 2 "$h"'ds\t0\n' 'A = 0' 'none before it'
from_rising_says 4 4 "$h"'in\nout\t0\nds\t1\n' 'A = 1: line 3 is an `out` line'
from_rising_says 4 3 "$h"'in\nds\t4294967296\n' 'A = 4294967296: this line is value 1'
from_rising_says 5 4 "$h"'in\nconst\t1\nds\t1\n' 'A = 1 is a constant, line 3: const 1' '`ds` takes a ciphertext'
from_rising_says 5 5 "$h"'in\nconst\t1\nenc\t1\t20\t0\nds\t2\n' 'A = 2 is an encoded constant'
from_rising_says 5 4 "$h"'in\nconst\t1\nmul\t0\t1\n' 'an encoded constant: `enc A S E` encodes'
from_rising_says 7 4 "$h"'in\nds\t0\nmul\t0\t1\n' 'levels differ' 'Value 0 (line 2) has scale 20 and level 0.' \
    'Value 1 (line 3) has scale 20 and level 1.' 'Bring both to one level: `ms A C` adds C levels' '`ds A` adds one level'
from_rising_says 7 6 "$h"'in\nconst\t1\nenc\t1\t20\t0\nms\t0\t1\nmul\t3\t2\n' 'encode it at level E = 1'
from_rising_says 8 4 "$h"'in\nus\t0\t15\nadd\t0\t1\n' 'Value 1 (line 3) has scale 35 and level 0.' 'Raise value 0 by 15 bits'
from_rising_says 9 4 "$h"'in\nds\t0\nds\t1\n' 'scale above the modulus' 'Value 1 (line 3) has scale 20 and level 1.' \
    '`ds` raises it to scale W + F = 80 first' 'F*(L - level) = 60 bits' 'Downscale at a lower level'
from_rising_says 9 2 'rising\t59\t60\t1\nin\n' 'An input has scale W and level 0'
from_rising_says 9 3 "$h"'const\t1\nenc\t0\t61\t1\n' 'scale 61 and level 1' 'Encode at a smaller scale S or at a lower level E.'
from_rising_says 9 3 "$h"'in\nus\t0\t101\n' 'This line would have scale 121 and level 0' 'Raise it by less, or where the level is lower.'
from_rising_says 9 3 "$h"'in\nms\t0\t2\n' 'This line would have scale 20 and level 2' 'The highest level is L - 1'
from_rising_says 9 4 'rising\t60\t20\t1\nin\nus\t0\t21\nmul\t0\t1\n' 'scale 61 and level 0' 'F*(L - level) = 60 bits' \
    'Lower the scale with `rs` or `ds` before, keep to a lower level'
from_rising_says 10 4 "$h"'in\nus\t0\t59\nrs\t1\t1\n' 'scale below the waterline' 'scale 19 and level 1' '`ds A` brings a scale below W + F to W'
from_rising_says 10 3 "$h"'const\t1\nenc\t0\t19\t1\n' 'Encode at a scale S of at least W.'
from_rising_says 10 4 "$h"'in\nus\t0\t100\nrs\t1\t2\n' 'The highest level is L - 1: give up fewer levels'
from_rising_says 11 3 "$h"'const\t1\nenc\t0\t20\t2\n' 'E = 2' "from 0 to 1, one less than the header's L"
from_rising_says 11 3 'rising\t60\t20\t1\nconst\t1\nenc\t0\t20\t1\n' 'E = 1' 'from 0 to 0'
from_rising_says 11 3 "$h"'const\t1\nenc\t0\t20\t4294967296\n' 'E = 4294967296'
from_rising_says 14 5 "$h"'in\nmul\t0\t0\nus\t1\t40\nds\t2\n' 'scale too high for ds (refusal 14): ds 2' \
    'Value 2 (line 4) has scale 80 and level 0.' '`ds` takes a scale below W + F = 80: here `rs A 1` is enough, and leaves scale 20.'
from_rising_says 14 5 "$h"'in\nmul\t0\t0\nus\t1\t41\nds\t2\n' 'leaves scale 21.'
# One bit less is taken, and so are the first and the last level.
printf "$h"'in\nus\t0\t59\nds\t1\nconst\t1\nenc\t3\t20\t0\nenc\t3\t20\t1\n' >"$l"
try 0 "$command" from-rising "$l"
prints <(printf 'schedule\t60\t20\t2\nin\nus\t0\t59\nus\t1\t1\nrs\t2\t1\nconst\t1\nenc\t4\t20\t2\nenc\t4\t20\t1\n')
from_rising_says 3 258 "$h$(lines 257 'in\n')" 'this is the 257th'
from_rising_says 3 1794 "$h"'in\n'"$(lines 1792 'us\t0\t1\n')" 'A listing has at most 1,792 lines'
# Lines after conversion: 100 and 846 times two are 1,792. A rule that is broken comes before 3.
inputs="$h$(lines 100 'in\n')"
downscales="$(lines 846 'ds\t0\n')"
printf "$inputs$downscales" >"$l"
try 0 "$command" from-rising "$l"
[ "$(wc -l <"$room/out")" -eq 1793 ] || fail "not 1,793 lines: $tried"
from_rising_says 3 948 "$inputs$downscales"'ds\t0\n' 'Each `ds` becomes two lines' 'with this line there are 1794.' 'One `ds` of a value can serve all'
from_rising_says 3 948 "$inputs$downscales"'neg\t0\n' 'with this line there are 1793.'
from_rising_says 3 948 "$inputs"'in\n'"$downscales" 'with this line there are 1793.'
from_rising_says 9 949 "$inputs$downscales"'ds\t0\nus\t0\t101\n' 'This line would have scale 121 and level 0'

h='schedule\t60\t20\t2\n'
to_rising_says 1 1 'rising\t60\t20\t2\n' 'This is a listing, and a schedule is wanted here: `gowashiru from-rising` makes one'
to_rising_says 1 3 "$h"'in\nds\t0\n' '`ds A` stands in listings in the rising-level dialect alone' '`rs` by 1'
to_rising_says 2 1 'schedule\t60\t61\t2\n' 'W = 61'
to_rising_says 3 258 "$h$(lines 257 'in\n')" 'this is the 257th'
to_rising_says 3 1794 "$h"'in\n'"$(lines 1792 'us\t0\t1\n')" 'A schedule has at most 1,792 lines'
to_rising_says 4 2 "$h"'neg\t0\n' 'A = 0'
to_rising_says 5 3 "$h"'in\nenc\t0\t20\t1\n' '`enc` takes a constant.'
to_rising_says 7 4 "$h"'in\nms\t0\t1\nmul\t0\t1\n' 'Value 1 (line 3) has scale 20 and level 1.' '`ms A C` takes C levels'
to_rising_says 8 4 "$h"'in\nus\t0\t15\nadd\t0\t1\n' 'Raise value 0 by 15 bits'
to_rising_says 9 3 "$h"'in\nus\t0\t101\n' 'This line would have scale 121 and level 2'
to_rising_says 10 3 "$h"'in\nrs\t0\t1\n' 'This line would have scale -40 and level 1'
to_rising_says 11 3 "$h"'const\t1\nenc\t0\t20\t0\n' 'E = 0' "from 1 to 2, the header's L"
h='circuit\t60\t20\t2\n'
check_says 1 "$s" 1 "$h" 'rising\t60\t20\t2\n' 'This is a listing, and a schedule is wanted here'

# ---- Headroom, the header's fourth number H: its form and its range

plan_says 1 1 'circuit\t60\t20\t2\t\n' 'A field is empty'
plan_says 1 1 'circuit\t60\t20\t2\t5\t5\n' '`circuit F W L` has 3 numbers after the word, or 4 with the headroom H, and here are 5.'
plan_says 1 1 'circuit\t60\t20\t2\t5\t\n' 'A field is empty'
plan_says 1 1 'circuit\t60\t20\t2\t05\n' '05 is no number'
plan_says 1 1 'circuit\t60\t20\t2\t-5\n' '-5 is no number'
plan_says 1 1 'circuit\t60\t20\t2\t+5\n' '+5 is no number'
plan_says 1 1 'circuit\t60\t20\t2\t4.5\n' '4.5 is no number'
plan_says 1 1 'circuit\t60\t20\t2\t100000000000\n' '100000000000 is no number: it has 12 digits'
# What is no number comes before a range.
plan_says 1 1 'circuit\t61\t20\t2\tx\n' 'x is no number'
plan_says 2 1 'circuit\t60\t20\t2\t0\n' 'circuit 60 20 2 0' 'H = 0: F, W, L and H are numbers from 1 to 60.' 'the header ends after L'
plan_says 2 1 'circuit\t60\t20\t2\t61\n' 'H = 61'
plan_says 2 1 'circuit\t60\t20\t2\t4294967301\n' 'H = 4294967301'
plan_says 2 1 'circuit\t60\t20\t0\t5\n' 'L = 0: F, W, L and H are numbers'
# The longest header of the form is shown whole.
plan_says 2 1 "circuit$(lines 4 '\t99999999999')"'\n' "circuit$(lines 4 ' 99999999999')" 'H = 99999999999'
picture_says 2 1 "schedule$(lines 4 '\t99999999999')"'\n' ": schedule$(lines 4 ' 99999999999')" 'F = 99999999999' 'H = 99999999999'
picture_says 1 1 'schedule\t60\t20\t2\t\n' 'A field is empty'
picture_says 2 1 'schedule\t60\t20\t2\t0\n' 'H = 0'
from_rising_says 1 1 'rising\t60\t20\t2\t5\t5\n' '`rising F W L` has 3 numbers after the word, or 4 with the headroom H'
from_rising_says 2 1 'rising\t60\t20\t2\t61\n' 'H = 61'
to_rising_says 1 1 'rising\t60\t20\t2\t5\n' 'This is a listing, and a schedule is wanted here'

# ---- Headroom: too few levels, scales that just fit and one bit more, another header

levels='in\nmul\t0\t0\nmul\t1\t0\n' # reserves 40, 20 and 0 at L = 1
plan_says 6 4 'circuit\t60\t20\t1\t1\n'"$levels" 'too few levels (refusal 6): mul 1 0' \
    'Even the best schedule would leave less than H = 1 bits of reserve at this line.' 'This circuit fits from L = 2 on'
plan_says 6 3 'circuit\t60\t20\t1\t21\n'"$levels" ': mul 0 0' 'less than H = 21 bits'
plan_says 6 2 'circuit\t60\t20\t1\t41\n'"$levels" ': in' 'less than H = 41 bits'
plan_says 6 4 'circuit\t60\t20\t1\t20\n'"$levels" ': mul 1 0'
plan_says 6 2 'circuit\t1\t60\t60\t1\nin\n' 'fits at no L from 1 to 60; line 2' 'a smaller W, a smaller H or a'
picture_says 9 2 'schedule\t60\t60\t1\t1\nin\n' 'scale and headroom above the modulus (refusal 9): in' 'scale 60 and level 1, scale + H = 61' \
    'The scale alone would fit: H = 1 keeps a place for numbers below 2^0' 'so that F*L is at least W + H'
h='schedule\t60\t20\t2\t5\n'
picture_says 9 3 "$h"'in\nus\t0\t96\n' 'scale and headroom above the modulus (refusal 9): us 0 96' 'This line would have scale 116 and level 2, scale + H = 121;' \
    'F*level = 120 bits' 'The scale alone would fit: H = 5 keeps a place for numbers below 2^4 in absolute value.' 'Raise it by less'
picture_says 9 3 "$h"'in\nus\t0\t101\n' 'scale + H = 126'
! grep -q 'would fit' "$room/err" || fail "says that a scale above the modulus would fit: $tried"
picture_says 9 3 "$h"'const\t1\nenc\t0\t56\t1\n' 'scale 56 and level 1, scale + H = 61' 'The scale alone would fit' 'Encode at a smaller scale S'
picture_says 9 4 "$h"'in\nus\t0\t40\nmul\t1\t1\n' 'scale 120 and level 2, scale + H = 125' 'Lower the scale with `rs` before'
picture_says 9 3 "$h"'in\nms\t0\t2\n' 'scale 20 and level 0, scale + H = 25' 'The lowest level is 1'
picture_says 10 4 "$h"'in\nus\t0\t59\nrs\t1\t1\n' 'This line would have scale 19 and level 1; the waterline W is 20'
to_rising_says 9 3 "$h"'in\nus\t0\t96\n' 'scale + H = 121'
from_rising_says 9 3 'rising\t60\t20\t2\t5\nin\nus\t0\t96\n' 'This line would have scale 116 and level 0, scale + H = 121' 'F*(L - level) = 120 bits'
from_rising_says 9 3 'rising\t40\t40\t2\t1\nin\nds\t0\n' 'scale and headroom above the modulus' '`ds` raises it to scale W + F = 80 first, W + F + H = 81,' \
    'F*(L - level) = 80 bits' 'The scale alone would fit' 'Downscale at a lower level'
from_rising_says 14 4 'rising\t60\t20\t2\t20\nin\nus\t0\t60\nds\t1\n' '`ds` takes a scale below W + F = 80'
check_says 12 "$c" 1 'circuit\t60\t20\t2\t5\nin\n' 'schedule\t60\t20\t2\t4\nin\n' ': circuit 60 20 2 5' "$s:1: erases to: circuit 60 20 2 4" \
    'and so has H: the same number in both, or in neither.'
check_says 12 "$c" 1 'circuit\t60\t20\t2\t5\nin\n' 'schedule\t60\t20\t2\nin\n' ': circuit 60 20 2 5' "$s:1: erases to: circuit 60 20 2"
check_says 12 "$c" 1 'circuit\t60\t20\t2\nin\n' 'schedule\t60\t20\t2\t5\nin\n' ': circuit 60 20 2' "$s:1: erases to: circuit 60 20 2 5"
h='circuit\t60\t20\t2\n'

# ---- Constant numbers and headroom: every service gives them back as they are. A circuit and its plan are formats of printf.

goes_through() { # LEAST_LEVEL PRICE CIRCUIT PLAN
    printf "$3" >"$c"
    printf "$4" >"$s"
    try 0 "$command" plan "$c"
    prints "$s"
    try 0 "$command" check "$c" "$s"
    prints_line passed
    try 0 "$command" erase "$s"
    prints "$c"
    try 0 "$command" least-level "$c"
    prints_line "$1"
    quotes "$c" "$2"
    goes_out_and_back "$s"
    try_picture "$s"
}

constants='in\nconst\t0\nconst\t65535\nconst\t65536\nconst\t4294967295\n'
# At level 2 two enc of 4, a product with a constant of 8 and a sum of 2.
goes_through 1 18 "$h$constants"'mul\t0\t4\nadd\t3\t5\nout\t6\n' \
    'schedule\t60\t20\t2\n'"$constants"'enc\t4\t20\t2\nmul\t0\t5\nenc\t3\t40\t2\nadd\t7\t6\nout\t8\n'
for shown in 0 65535 65536 4294967295; do
    grep -q ">$shown</text>" "$room/out" || fail "the picture does not show constant $shown"
done
# Scales that just fit with H: at L = 1 a best reserve of exactly H, at L = 2 an upscale and a rescale. The least level is one with H.
goes_through 1 40 'circuit\t60\t20\t1\t20\nin\nmul\t0\t0\nout\t1\n' 'schedule\t60\t20\t1\t20\nin\nmul\t0\t0\nout\t1\n'
goes_through 2 80 'circuit\t60\t20\t2\t21\nin\nmul\t0\t0\nout\t1\n' 'schedule\t60\t20\t2\t21\nin\nmul\t0\t0\nout\t1\n'
printf 'circuit\t60\t20\t2\t5\nin\nout\t0\n' >"$c"
printf 'schedule\t60\t20\t2\t5\nin\nus\t0\t95\nrs\t1\t1\nout\t2\n' >"$s"
try 0 "$command" check "$c" "$s"
prints_line passed
goes_out_and_back "$s"
printf 'rising\t40\t39\t2\t1\nin\nds\t0\n' >"$l"
try 0 "$command" from-rising "$l"
prints <(printf 'schedule\t40\t39\t2\t1\nin\nus\t0\t40\nrs\t1\t1\n')
# The picture has H, and what each reserve leaves above it: 100, 80 and 60 less 5.
try_picture examples/detune.plan
for shown in 'headroom H = 5' '>less H<' 'headroom H, which no scale takes up' '>95<' '>75<' '>55<'; do
    grep -qF -- "$shown" "$room/out" || fail "the picture does not show $shown"
done
# The longest circuit and the longest schedule that read.
constants="$(lines 256 'const\t4294967295\n')"
goes_through 1 0 'circuit\t60\t60\t60\t60\n'"$constants" 'schedule\t60\t60\t60\t60\n'"$constants"
cp "$c" "$room/longest.circuit"
cp "$s" "$room/longest.schedule"
[ "$(wc -c <"$room/longest.circuit")" -eq 4372 ] || fail "the longest circuit has not 4,372 bytes"
cat "$room/longest.circuit" - <<<"const	4294967295" >"$room/longer.circuit"
refused 3 "$room/longer.circuit" 258 "$command" plan "$room/longer.circuit"
constants="$(lines 1792 'const\t4294967295\n')"
printf 'schedule\t60\t60\t60\t60\n'"$constants" >"$s"
[ "$(wc -c <"$s")" -eq 30485 ] || fail "the longest schedule has not 30,485 bytes"
refused 12 "$room/longest.circuit" 258 "$command" check "$room/longest.circuit" "$s"
says 'keeps more lines than a circuit may have'
# A header alone, and rs and ms lines that give up several levels: enc 16, mul with it 32, two rs of 48 + 42, mul 240, rs 36 + 30, enc 8, add 4,
# ms 8 + 7 + 6 + 5, mul 160.
printf 'circuit\t60\t20\t2\n' >"$c"
quotes "$c" 0
prints <(printf 'lines\t1\nbytes\t17\nprice\t0\n')
printf 'circuit\t10\t20\t8\nin\nconst\t7\nmul\t1\t0\nmul\t2\t2\nadd\t3\t1\nmul\t4\t0\n' >"$c"
quotes "$c" 732
# The longest lines that may stand in a listing and keep the rules.
printf 'schedule\t60\t60\t60\t60\n'"$(lines 256 'const\t4294967295\n')$(lines 1536 'enc\t255\t2940\t50\n')" >"$s"
goes_out_and_back "$s"
[ "$(grep -c '^enc	255	2940	10$' "$room/listing")" -eq 1536 ] || fail "the levels are not turned: $tried"

# ---- Live ciphertexts. A schedule is given as a format of printf.

answers() { # ANSWER WORDS...
    local answer=$1
    shift
    try 0 "$command" "$@"
    says_nothing
    prints_line "$answer"
}

# All four refuse a file alike, before a number that it lacks.
live_says() { # NUMBER PLACE SCHEDULE TEXT...
    local number=$1 place=$2 asked
    printf "$3" >"$s"
    shift 3
    for asked in "may-drop $s 4294967295 4294967295" "live-after $s 4294967295" "live-peak $s" "live $s"; do
        refused "$number" "$s" "$place" "$command" $asked
        says "$@"
    done
}

# A value or line that the schedule lacks: no line of the file did it, so none is shown.
lacks() { # LACKING FILE TEXT WORDS...
    local lacking=$1 file=$2 text=$3
    shift 3
    try 1 "$command" "$@"
    prints_nothing
    prints_said "$file: the schedule lacks $lacking (refusal 4)" "  $text"
}

prints_said() { # LINE...
    cmp -s "$room/err" <(printf '%s\n' "$@") || fail "says something else: $tried"
}

h='schedule\t60\t20\t2\n'
live_says 1 1 '' 'The file is empty' '`schedule F W L`'
live_says 1 1 'circuit\t60\t20\t2\nin\n' 'This is a circuit, and a schedule is wanted here: `gowashiru plan` makes one'
live_says 1 1 'rising\t60\t20\t2\nin\n' 'This is a listing, and a schedule is wanted here: `gowashiru from-rising` makes one'
live_says 1 3 "$h"'in\nds\t0\n' '`ds A` stands in listings in the rising-level dialect alone'
live_says 1 3 "$h"'in\nneg\t0' 'The last line is not closed'
live_says 2 1 'schedule\t60\t20\t61\nin\n' 'L = 61'
live_says 2 1 'schedule\t60\t20\t2\t0\nin\n' 'H = 0' 'the header ends after L'
live_says 3 1794 "$h$(lines 1793 'in\n')" 'A schedule has at most 1,792 lines after its header'
live_says 4 2 "$h"'neg\t0\n' 'operand names no usable earlier line' 'A = 0' 'none before it'
live_says 4 4 "$h"'in\nout\t0\nneg\t1\n' 'A = 1: line 3 is an `out` line'
live_says 5 4 "$h"'in\nconst\t1\nmul\t0\t1\n' 'B = 1 is a constant'
live_says 11 3 "$h"'const\t1\nenc\t0\t20\t3\n' 'E = 3'

# A value named twice, constants, one that is never named and an out: before the own line, before the entry, at it and after it.
printf "$h"'in\nconst\t7\nenc\t1\t20\t2\nmul\t2\t0\nneg\t0\nout\t3\n' >"$s"
for asked in "0 0 no" "0 3 no" "0 4 yes" "0 5 yes" "1 0 no" "1 1 no" "1 2 yes" "2 2 no" "2 3 yes" "3 2 no" "3 4 no" "3 5 yes" \
    "4 3 no" "4 4 yes" "4 5 yes" "5 0 no" "5 4 no" "5 5 yes"; do
    read -r value line answer <<<"$asked"
    answers "$answer" may-drop "$s" "$value" "$line"
done
for asked in "0 1" "1 1" "2 1" "3 2" "4 1" "5 0"; do
    answers "${asked#* }" live-after "$s" "${asked% *}"
done
answers 2 live-peak "$s"
try 0 "$command" live "$s"
prints <(printf '0\t4\t1\n1\t2\t1\n2\t3\t1\n3\t5\t2\n4\t4\t1\n5\t5\t0\n')
answers yes may-drop - 0 4 <"$s"
answers 2 live-after - 3 <"$s"
answers 2 live-peak - <"$s"
answers 2 live-peak <"$s"
answers no may-drop -- "$s" 0 3

# The last number that the schedule has was tried above; the first that it lacks, and numbers that 16 bits would take for small ones.
six='It has 6 values, numbered 0 to 5, and its lines have the same numbers: value n stands in line n + 2 of the file.'
lacks 'value 6' "$s" "$six" may-drop "$s" 6 5
lacks 'line 6' "$s" "$six" may-drop "$s" 5 6
lacks 'value 6 and line 7' "$s" "$six" may-drop "$s" 6 7
lacks 'line 6' "$s" "$six" live-after "$s" 6
lacks 'value 65536' "$s" "$six" may-drop "$s" 65536 5
lacks 'line 65541' "$s" "$six" may-drop "$s" 0 65541
lacks 'line 65536' "$s" "$six" live-after "$s" 65536
lacks 'value 4294967295' "$s" "$six" may-drop "$s" 4294967295 0
lacks 'value 4294967295 and line 4294967295' 'standard input' "$six" may-drop - 4294967295 4294967295 <"$s"
lacks 'line 4294967295' 'standard input' "$six" live-after - 4294967295 <"$s"
# A header alone, and one value.
printf "$h" >"$s"
lacks 'value 0 and line 0' "$s" 'It has a header alone, and so no value and no line to ask about.' may-drop "$s" 0 0
lacks 'line 0' "$s" 'It has a header alone, and so no value and no line to ask about.' live-after "$s" 0
answers 0 live-peak "$s"
try 0 "$command" live "$s"
prints_nothing
says_nothing
printf "$h"'in\n' >"$s"
answers yes may-drop "$s" 0 0
answers 0 live-after "$s" 0
lacks 'line 1' "$s" 'It has 1 value, numbered 0 to 0, and its lines have the same numbers: value n stands in line n + 2 of the file.' live-after "$s" 1

# The rules need not hold, and more than 256 lines may be kept: levels and scales that differ, a scale above the modulus and one below the waterline.
printf "$h"'in\nus\t0\t3600\nms\t0\t60\nrs\t0\t60\nadd\t1\t2\nmul\t3\t4\n' >"$s"
refused 9 "$s" 3 "$command" to-rising "$s"
answers 3 live-peak "$s"
try 0 "$command" live "$s"
prints <(printf '0\t3\t1\n1\t4\t2\n2\t4\t3\n3\t5\t3\n4\t5\t2\n5\t5\t0\n')
# Full schedules: nothing named; as many live as can be, two for each of the last lines; the longest, of constants.
printf "$h$(lines 1792 'in\n')" >"$s"
answers 0 live-peak "$s"
answers yes may-drop "$s" 1791 1791
answers no may-drop "$s" 1791 1790
lacks 'line 1792' "$s" 'It has 1792 values, numbered 0 to 1791, and its lines have the same numbers: value n stands in line n + 2 of the file.' live-after "$s" 1792
{ printf "$h$(lines 1194 'in\n')" && seq 0 2 1192 | awk '{ printf "add\t%d\t%d\n", $1, $1 + 1 }' && printf 'out\t1790\n'; } >"$s"
answers 1194 live-peak "$s"
answers 1194 live-after "$s" 1193
answers 1 live-after "$s" 1790
answers no may-drop "$s" 1193 1789
answers yes may-drop "$s" 1193 1790
try 0 "$command" live "$s"
[ "$(wc -l <"$room/out")" -eq 1792 ] || fail "not 1,792 lines: $tried"
[ "$(sed -n '1194p' "$room/out")" = "1193	1790	1194" ] || fail "another line 1194: $tried"
[ "$(tail -n 1 "$room/out")" = "1791	1791	0" ] || fail "another last line: $tried"
printf 'schedule\t60\t60\t60\t60\n'"$(lines 1792 'const\t4294967295\n')" >"$s"
answers 0 live-peak "$s"

# ---- Reading

good=examples/listing.circuit
try 2 "$command" plan "$room/none"
says "$room/none: No such file"
try 2 "$command" plan "$room"
says "$room: Is a directory"
try 2 "$command" plan <"$room"
says 'standard input: Is a directory'
try 2 "$command" check "$good" "$room/none"
says "$room/none: No such file"
try 2 "$command" quote "$room/none"
says "$room/none: No such file"
prints_nothing
try 2 "$command" quote <"$room"
says 'standard input: Is a directory'
try 2 "$command" quote <&-
says 'standard input: it is closed'
refused 1 /dev/zero 1 "$command" quote /dev/zero
refused 3 'standard input' 258 "$command" quote < <(printf 'circuit\t60\t20\t2\n'; yes in)
try 0 "$command" quote - <"$good"
prints examples/listing.quote
try 0 "$command" quote -- "$good"
prints examples/listing.quote
listing=examples/wavetables.downscaled
for service in from-rising to-rising; do
    try 2 "$command" "$service" "$room/none"
    says "$room/none: No such file"
    try 2 "$command" "$service" <"$room"
    says 'standard input: Is a directory'
    try 2 "$command" "$service" <&-
    says 'standard input: it is closed'
    refused 1 /dev/zero 1 "$command" "$service" /dev/zero
    refused 1 'standard input' 1 "$command" "$service" < <(yes)
done
refused 3 'standard input' 258 "$command" from-rising < <(printf 'rising\t60\t20\t2\n'; yes in)
refused 3 'standard input' 258 "$command" to-rising < <(printf 'schedule\t60\t20\t2\n'; yes in)
refused 3 'standard input' 1794 "$command" from-rising < <(printf 'rising\t60\t20\t2\nin\n'; yes 'ds	0')
plan=examples/listing.plan
for service in live-peak live; do
    try 2 "$command" "$service" <&-
    says 'standard input: it is closed'
    refused 3 'standard input' 1794 "$command" "$service" < <(printf 'schedule\t60\t20\t2\n'; yes in)
    try 2 "$command" "$service" "$room/none"
    says "$room/none: No such file"
done
for asked in "may-drop - 0 0" "live-after - 0" "live-peak -" "live -"; do
    try 2 "$command" $asked <"$room"
    says 'standard input: Is a directory'
    refused 1 'standard input' 1 "$command" $asked </dev/zero
    refused 1 'standard input' 1 "$command" $asked < <(yes)
    try 0 "$command" $asked <"$plan"
done
try 2 "$command" may-drop "$room/none" 0 0
says "$room/none: No such file"
try 2 "$command" live-after - 0 <&-
says 'standard input: it is closed'
try 0 "$command" live -- "$plan"
prints <(grep -v '^peak' "$plan.live")
try 2 "$command" plan <&-
says 'standard input: it is closed'
try 2 "$command" plan /proc/self/mem
says '/proc/self/mem: Input/output error'
refused 1 /dev/zero 1 "$command" plan /dev/zero
refused 1 'standard input' 1 "$command" erase < <(yes)
refused 3 'standard input' 258 "$command" plan < <(printf 'circuit\t60\t20\t2\n'; yes in)
refused 3 'standard input' 258 "$command" erase < <(printf 'schedule\t60\t20\t2\n'; yes in)
# A long line is refused alike whether or not its end is read.
refused 1 'standard input' 2 "$command" plan < <(printf 'circuit\t60\t20\t2\n'; head -c 60000 /dev/zero | tr '\0' x; echo)
refused 1 'standard input' 2 "$command" plan < <(printf 'circuit\t60\t20\t2\n'; tr '\0' x </dev/zero)
says 'longer than any'
try 0 "$command" plan - <"$good"
prints examples/listing.plan
try 0 "$command" plan -- "$good"
prints examples/listing.plan
at_terminal "$command plan" circuit "$good"
at_terminal "$command quote" circuit "$good"
at_terminal "$command from-rising" listing "$listing.rising"
at_terminal "$command live" schedule "$plan"
at_terminal "$command may-drop - 0 3" schedule "$plan"

# ---- Writing

try 2 bash -c "'$command' plan $good >/dev/full"
says 'standard output: No space left on device'
try 2 bash -c "'$command' plan $good >&-"
says 'standard output: it is closed'
try 2 bash -c "'$command' --help >/dev/full"
says 'No space left on device'
try 2 bash -c "{ sleep 0.5; '$command' plan $good; echo \$? >'$room/status'; } | true; exit \$(cat '$room/status')"
says 'standard output: Broken pipe'
try 0 "$command" plan "$good" -o "$room/new.schedule"
prints_nothing
cmp -s "$room/new.schedule" examples/listing.plan || fail "not the plan: $tried"
chmod 640 "$room/new.schedule"
try 0 "$command" erase examples/listing.plan -o "$room/new.schedule"
cmp -s "$room/new.schedule" "$good" || fail "not the erasure: $tried"
[ "$(stat -c %a "$room/new.schedule")" = 640 ] || fail "another mode: $tried"
ln -s new.schedule "$room/link"
try 0 "$command" plan -o "$room/link" "$good"
[ -L "$room/link" ] && cmp -s "$room/new.schedule" examples/listing.plan || fail "the link is lost: $tried"
ln -s nothing "$room/dangling"
try 2 "$command" plan -o "$room/dangling" "$good"
says 'it is a link to a file that is not there'
cp "$good" "$room/own"
try 0 "$command" plan "$room/own" -o "$room/own"
cmp -s "$room/own" examples/listing.plan || fail "not the plan: $tried"
try 1 "$command" plan examples/power_16.circuit -o "$room/own"
cmp -s "$room/own" examples/listing.plan || fail "a refusal wrote: $tried"
# No file may grow: what is written fails, and what was there stays.
try 2 bash -c "ulimit -f 0; exec '$command' erase examples/listing.plan -o '$room/own' 2>/dev/null"
cmp -s "$room/own" examples/listing.plan || fail "a failed write changed the file: $tried"
try 2 bash -c "ulimit -f 0; exec '$command' plan $good -o '$room/other' 2>/dev/null"
[ ! -e "$room/other" ] || fail "a failed write left a file: $tried"
[ -z "$(find "$room" -name '*.??????')" ] || fail "a file is left behind"
try 0 "$command" from-rising "$listing.rising" -o "$room/own"
prints_nothing
cmp -s "$room/own" "$listing.from_rising" || fail "not the schedule: $tried"
try 1 "$command" from-rising examples/cubed_sum.late.rising -o "$room/own"
cmp -s "$room/own" "$listing.from_rising" || fail "a refusal wrote: $tried"
try 1 "$command" to-rising examples/morph.no_upscale.schedule -o "$room/own"
cmp -s "$room/own" "$listing.from_rising" || fail "a refusal wrote: $tried"
try 2 bash -c "ulimit -f 0; exec '$command' to-rising $listing.from_rising -o '$room/own' 2>/dev/null"
cmp -s "$room/own" "$listing.from_rising" || fail "a failed write changed the file: $tried"
try 2 bash -c "'$command' from-rising $listing.rising >/dev/full"
says 'standard output: No space left on device'
try 2 bash -c "'$command' to-rising $listing.from_rising >&-"
says 'standard output: it is closed'
try 0 "$command" quote "$good" -o "$room/own"
prints_nothing
cmp -s "$room/own" examples/listing.quote || fail "not the quote: $tried"
try 1 "$command" quote examples/power_16.circuit -o "$room/own"
cmp -s "$room/own" examples/listing.quote || fail "a refusal wrote: $tried"
try 2 bash -c "ulimit -f 0; exec '$command' quote examples/sobel.circuit -o '$room/own' 2>/dev/null"
cmp -s "$room/own" examples/listing.quote || fail "a failed write changed the file: $tried"
try 2 bash -c "'$command' quote $good >/dev/full"
says 'standard output: No space left on device'
try 2 bash -c "'$command' quote $good >&-"
says 'standard output: it is closed'
for asked in "may-drop $plan 0 3:yes" "live-after $plan 6:2" "live-peak $plan:2"; do
    try 0 "$command" ${asked%:*} -o "$room/own"
    prints_nothing
    [ "$(cat "$room/own")" = "${asked#*:}" ] || fail "not the answer: $tried"
done
try 0 "$command" live -o "$room/own" "$plan"
prints_nothing
cmp -s "$room/own" <(grep -v '^peak' "$plan.live") || fail "not the table: $tried"
for asked in "may-drop $plan 12 3" "live-after $plan 12" "live-peak $good" "live $good"; do
    try 1 "$command" $asked -o "$room/own"
    cmp -s "$room/own" <(grep -v '^peak' "$plan.live") || fail "a refusal wrote: $tried"
done
for asked in "may-drop $plan 0 3" "live-after $plan 6" "live-peak $plan" "live $plan"; do
    try 2 bash -c "ulimit -f 0; exec '$command' $asked -o '$room/own' 2>/dev/null"
    cmp -s "$room/own" <(grep -v '^peak' "$plan.live") || fail "a failed write changed the file: $tried"
    try 2 bash -c "'$command' $asked >/dev/full"
    says 'standard output: No space left on device'
    try 2 bash -c "'$command' $asked >&-"
    says 'standard output: it is closed'
done
try 2 "$command" plan "$good" -o "$room"
says 'Is a directory'
try 2 "$command" plan "$good" -o "$room/none/x"
says 'No such file'
try 2 "$command" plan "$good" -o /dev/full
says '/dev/full: No space left on device'
try 0 "$command" plan "$good" -o /dev/stdout
prints examples/listing.plan
try 0 "$command" plan "$good" -o -
prints examples/listing.plan
try 0 bash -c "'$command' plan $good -o '$room/quiet' >&-"
cmp -s "$room/quiet" examples/listing.plan || fail "not the plan: $tried"

# ---- Use

try 2 "$command"
says 'which command?' 'gowashiru --help'
try 2 "$command" draw
says 'no such command: draw'
try 2 "$command" -o "$room/x" plan "$good"
says 'a command comes first'
try 2 "$command" plan -x "$good"
says 'no such option: -x' 'gowashiru plan --help'
try 2 "$command" plan "$good" "$good"
says 'one file too many'
try 2 "$command" from-rising "$listing.rising" "$listing.rising"
says 'one file too many'
try 2 "$command" to-rising -x "$listing.from_rising"
says 'no such option: -x' 'gowashiru to-rising --help'
try 2 "$command" quote "$good" "$good"
says 'one file too many' 'gowashiru quote --help'
try 2 "$command" quote -x "$good"
says 'no such option: -x' 'gowashiru quote --help'
# A number is wrong before any file is read.
for number in '' +1 -1 - 01 00 -0 1x x ' 1' '1 ' 1.5 0x1 1e3 4294967296 99999999999 100000000000 18446744073709551616; do
    try 2 "$command" may-drop "$room/none" "$number" 0
    prints_nothing
    says "VALUE is a number from 0 to 4294967295, without sign or leading zeros, and this is none: '$number'" 'gowashiru may-drop --help'
    try 2 "$command" may-drop "$room/none" 0 "$number"
    says "LINE is a number from 0 to 4294967295, without sign or leading zeros, and this is none: '$number'"
    try 2 "$command" live-after -- "$room/none" "$number"
    says "LINE is a number from 0 to 4294967295, without sign or leading zeros, and this is none: '$number'" 'gowashiru live-after --help'
done
for asked in "" "$plan" "$plan 0"; do
    try 2 "$command" may-drop $asked
    says 'may-drop needs a file and two numbers, SCHEDULE, VALUE and LINE' 'gowashiru may-drop --help'
done
for asked in "" "$plan"; do
    try 2 "$command" live-after $asked
    says 'live-after needs a file and a number, SCHEDULE and LINE'
done
try 2 "$command" may-drop "$plan" 0 1 2
says 'one word too many: 2'
try 2 "$command" live-after "$plan" 0 1
says 'one word too many: 1'
try 2 "$command" live-peak "$plan" 0
says 'one file too many: 0'
try 2 "$command" live "$plan" "$plan"
says 'one file too many'
try 2 "$command" may-drop -x "$plan" 0 1
says 'no such option: -x' 'gowashiru may-drop --help'
try 2 "$command" live-after "$plan" -x
says 'no such option: -x'
try 2 "$command" live -1
says 'no such option: -1'
try 2 "$command" check "$good"
says 'check needs two files'
try 2 "$command" check - -
says 'only one file can be standard input'
try 2 "$command" plan -o
says '-o needs the name of a file'
try 2 "$command" plan -o a -o b "$good"
says '-o is given twice'
try 0 "$command" --help
says_nothing
for name in plan check erase least-level quote from-rising to-rising picture may-drop live-after live-peak live; do
    grep -q "^  $name " "$room/out" || fail "help leaves out $name"
done
grep -q 'H from 1 to 60' "$room/out" || fail "help leaves out H"
for name in plan check erase least-level quote from-rising to-rising picture may-drop live-after live-peak live; do
    try 0 "$command" "$name" --help
    grep -q "^usage: gowashiru $name " "$room/out" || fail "no usage: $tried"
done
# Each price of the header stands in the help and in the manual page.
price_of() { # NAME
    sed -n "s/^ *GOWASHIRU_PRICE_$1 = \([0-9]*\).*/\1/p" include/gowashiru.h
}
try 0 "$command" quote --help
page="$(cat tools/gowashiru.1)"
for price in "MUL:mul of two ciphertexts" ROT:rot RS:rs "MUL_WITH_CONSTANT:mul with a constant" US:us ENC:enc ADD:add NEG:neg MS:ms; do
    grep -q "[ ,]${price#*:} $(price_of "${price%%:*}")\(,\|\$\)" "$room/out" || fail "help leaves out the price of ${price#*:}"
    grep -qE "^(|.*, )${price#*:}(|, .*)\|$(price_of "${price%%:*}")\$" <<<"$page" || fail "the manual page leaves out the price of ${price#*:}"
done
version="$(sed -n 's/^.define GOWASHIRU_VERSION "\(.*\)"/\1/p' include/gowashiru.h)"
try 0 "$command" --version
prints_line "gowashiru $version"
try 0 ./gowashiru plan "$good"
prints examples/listing.plan
says_nothing
try 0 bash -c "./gowashiru plan $good 2>&-"
prints examples/listing.plan

# ---- Installation

try 0 make --silent install DESTDIR="$room/installed" PREFIX=/opt
try 0 "$room/installed/opt/bin/gowashiru" plan "$good"
prints examples/listing.plan
grep -qx "Version: $version" "$room/installed/opt/lib/pkgconfig/gowashiru.pc" || fail "another version for pkg-config"
grep -q 'headroom H' "$room/installed/opt/share/man/man1/gowashiru.1" || fail "no manual page that has H"
for name in quote may-drop live-after live-peak live; do
    grep -qx ".B gowashiru $name" "$room/installed/opt/share/man/man1/gowashiru.1" || fail "no manual page that has $name"
done
# The table of the manual page is the listing's.
diff <(sed -n 's/^\(in\|[a-z]* [0-9 ]*\)|\([0-9]* [0-9]* [0-9]*\)$/\2/p' tools/gowashiru.1) <(grep -v '^peak' examples/listing.plan.live | tr '\t' ' ') >/dev/null ||
    fail "the manual page has another table of live ciphertexts"
[ -s "$room/installed/opt/share/doc/gowashiru/FORMAT.md" ] || fail "no page on the files"
sed "s|\.\./include/||" examples/host.c >"$room/host.c"
sed -i "s|^prefix=|&$room/installed|" "$room/installed/opt/lib/pkgconfig/gowashiru.pc"
if command -v pkg-config >/dev/null; then
    try 0 bash -c "PKG_CONFIG_PATH='$room/installed/opt/lib/pkgconfig'; export PKG_CONFIG_PATH
        gcc '$room/host.c' \$(pkg-config --cflags --libs gowashiru) -o '$room/host' && '$room/host'"
    prints examples/host.expected
else
    without pkg-config "a host built with the installed library"
fi

# ---- plan.sh

try 0 ./plan.sh <"$good"
prints examples/listing.plan
says_nothing
try 1 ./plan.sh <examples/power_16.circuit
prints examples/power_16.plan
try 0 ./plan.sh <examples/wavetables.circuit
prints examples/wavetables.plan
try 0 ./plan.sh <examples/detune.circuit
prints examples/detune.plan
try 1 ./plan.sh <examples/detune_one_level.circuit
prints examples/detune_one_level.plan
try 1 ./plan.sh < <(printf 'circuit\t60\t20\t1\t0\n')
prints <(printf 'refused\t2\t1\n')
try 1 ./plan.sh < <(printf 'circuit\t60\t20\t1\t5\t5\n')
prints <(printf 'refused\t1\t1\n')
try 0 ./plan.sh <"$room/longest.circuit"
prints "$room/longest.schedule"
try 1 ./plan.sh <"$room/longer.circuit"
prints <(printf 'refused\t3\t258\n')
try 1 ./plan.sh < <(printf 'circuit\t60\t20\t1\nconst\t4294967296\n')
prints <(printf 'refused\t11\t2\n')
try 1 ./plan.sh </dev/null
prints <(printf 'refused\t1\t1\n')
try 1 ./plan.sh </dev/zero
prints <(printf 'refused\t1\t1\n')
try 2 ./plan.sh <"$room"
prints_nothing
says 'standard input cannot be read'
try 2 ./plan.sh </proc/self/mem
prints_nothing
says 'standard input cannot be read'
try 2 ./plan.sh <&-
prints_nothing
says 'standard input is closed'
try 2 bash -c "./plan.sh <$good >/dev/full"
says 'standard output cannot be written'
try 2 bash -c "./plan.sh <$good >&-"
says 'standard output cannot be written'
try 2 bash -c "{ sleep 0.5; ./plan.sh <$good; echo \$? >'$room/status'; } | true; exit \$(cat '$room/status')"
says 'standard output cannot be written'
try 0 bash -c "./plan.sh <$good 2>&-"
prints examples/listing.plan
try 2 ./plan.sh "$good"
prints_nothing
says 'usage: plan.sh'
at_terminal ./plan.sh circuit "$good"

# ---- Building, in a copy, with a stand-in for rt that says what rt says

copy="$room/copy"
mkdir -p "$copy" "$room/bin"
tar -cf - --exclude='crates/*/out' tools crates crates.txt toolchain.txt include plan.sh | tar -xf - -C "$copy"
bin_without_rt="$(dirname "$(command -v bash)"):/usr/bin:/bin"
try 2 env PATH="$bin_without_rt" "$copy/plan.sh" <"$good"
says 'there is no rt on the PATH' "$(cat toolchain.txt)"
stand_in() { # VERSION
    cat >"$room/bin/rt" <<END
#!/bin/sh
case "\$1" in
version) echo "$1" ;;
run)
    echo "rt: chose --jobs 2 for fields"
    echo "crate fields: modules loaded=288 checked=0"
    echo "logic=proved functions=10"
    echo "rt: chose --jobs 2 for ints"
    echo "crate ints: modules loaded=0 checked=13"
    echo "logic=proved functions=0"
    echo "rt: chose --jobs 2 for plan"
    echo "crate plan: modules loaded=0 checked=60"
    echo "logic=proved functions=3"
    echo run >>$room/asked
    mkdir -p out && printf '#!/bin/sh\necho planned\n' >out/plan && chmod +x out/plan
    ;;
esac
END
    chmod +x "$room/bin/rt"
}
stand_in "another kit"
try 0 env PATH="$room/bin:$bin_without_rt" "$copy/plan.sh" <"$good"
says 'another one than all was proved with' "wanted: $(cat toolchain.txt)" 'found:  another kit'
rm -rf "$copy/target" "$room/asked"
stand_in "$(cat toolchain.txt)"
try 0 env PATH="$room/bin:$bin_without_rt" "$copy/plan.sh" <"$good"
prints_line planned
grep -Eq '^proved 2 of [0-9]+: ints$' "$room/err" || fail "no line for a crate: $tried"
grep -Eq '^proved 3 of [0-9]+: plan$' "$room/err" || fail "no line for the last crate: $tried"
[ "$(wc -l <"$room/err")" -eq 3 ] || fail "more than a line a crate"
grep -q '^crate fields: modules loaded=288 checked=0' "$copy/target/build.log" || fail "no log"
touch "$copy/crates/ints/src/lib.rt"
try 0 env PATH="$bin_without_rt" "$copy/plan.sh" <"$good"
says_nothing
echo '// A change.' >>"$copy/crates/ints/src/lib.rt"
try 0 env PATH="$room/bin:$bin_without_rt" "$copy/plan.sh" <"$good"
[ "$(wc -l <"$room/asked")" -eq 2 ] || fail "a change was not noticed"
echo '# not what was built' >>"$copy/target/bin/plan"
try 0 env PATH="$room/bin:$bin_without_rt" "$copy/plan.sh" <"$good"
[ "$(wc -l <"$room/asked")" -eq 3 ] || fail "another program was not noticed"

cat >"$room/bin/rt" <<'END'
#!/bin/sh
[ "$1" = version ] && exec cat toolchain.txt
echo "rt: chose --jobs 2 for ints"
echo "logic=not-proved"
exit 1
END
echo '// Another change.' >>"$copy/crates/ints/src/lib.rt"
try 2 env PATH="$room/bin:$bin_without_rt" "$copy/plan.sh" <"$good"
prints_nothing
says 'ints is not proved' 'plan cannot be built' 'target/build.log says why'

expected=904
[ "$count" -eq "$expected" ] || fail "$count cases, not $expected. If it is meant, store the number and say why in the commit."
echo "command: $count cases as they should be"
