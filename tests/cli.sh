#!/usr/bin/env bash
# What flowed prints, writes and answers on the command line. Wants crates/flowed/out/flowed, as `rt run` in
# crates/flowed leaves it.
set -u
top=$(cd "$(dirname "$0")/.." && pwd)
flowed=$top/crates/flowed/out/flowed
work=$(mktemp -d)
trap 'rm -rf "$work"' EXIT
cd "$work" || exit 1
failed=0
ran=0

# expect NAME STATUS ARGUMENTS..: with files in, out and err beside: standard input, output and error
expect() {
    local name=$1 status=$2
    shift 2
    "$flowed" "$@" <in >got.out 2>got.err
    local got=$?
    ran=$((ran + 1))
    if [ "$got" != "$status" ] || ! cmp -s got.out out || ! cmp -s got.err err; then
        echo "FAILED $name: status $got, wanted $status"
        diff out got.out
        diff err got.err
        failed=$((failed + 1))
    fi
}

# a bare LF is refused where it stands, with nothing on standard output
printf 'ab\ncd\n' >in
: >out
cat >err <<'T'
bytes in           6
lines              2
bytes on the wire  2
refused            0D and 0A do not stand in pairs (cause 15) in the dot stage (layer 4), level 0, place 2
flowed: the body was not carried (--lf turns LF line ends into CRLF first)
T
expect bare-lf 1 carry

# and with --lf the same body goes through
cat >out <<'T'
bytes in           8
lines              2
bytes on the wire  11, end mark included
dots doubled       0
bytes come back    8, each as it was sent
T
: >err
expect lf 0 carry --lf -

# a half line is not completed, and no file is written
printf 'a\r\nb' >in
: >out
cat >err <<'T'
bytes in           4
lines              1
bytes on the wire  4
refused            closed inside a line (cause 16) in the dot stage (layer 4), level 0, place 4
flowed: the body was not carried (--lf turns LF line ends into CRLF first)
T
expect half-line 1 carry --wire wire
[ -e wire ] && { echo "FAILED half-line: wrote a file"; failed=$((failed + 1)); }

# the wire bytes, in a pipe: the report goes to standard error
printf '.a\r\n' >in
printf '..a\r\n.\r\n' >out
cat >err <<'T'
bytes in           4
lines              1
bytes on the wire  8, end mark included
dots doubled       1
bytes come back    4, each as it was sent
T
expect wire-out 0 carry --wire -

# the wire bytes in a file, the body from one
cp in body
cp out wire-wanted
cp err out
: >err
: >in
expect wire-file 0 carry --wire wire body
cmp wire wire-wanted || failed=$((failed + 1))

# a command line that is wrong
: >in
: >out
echo "flowed: no command is given (flowed --help tells the usage)" >err
expect no-command 1
echo "flowed: unknown command send (flowed --help tells the usage)" >err
expect unknown-command 1 send
echo "flowed: unknown option --crlf (flowed --help tells the usage)" >err
expect unknown-option 1 carry --crlf
echo "flowed: --wire wants a file's name (flowed --help tells the usage)" >err
expect no-file 1 carry --wire
echo "flowed: more than one body: b (flowed --help tells the usage)" >err
expect two-bodies 1 carry a b
echo "flowed: none: No such file or directory (os error 2)" >err
expect missing-body 1 carry none

# a text composed: the wire bytes on standard output, the report on standard error
printf 'The quick brown fox jumps\n' >in
printf 'The quick brown fox \r\njumps\r\n' >out
cat >err <<'T'
paragraphs         1
wire lines         2
bytes on the wire  29
widest line        20
T
expect compose 0 compose --width 20

# quoted, and with the last line end left out
printf 'The quick brown fox jumps' >in
printf '> The quick brown \r\n> fox jumps\r\n' >out
cat >err <<'T'
paragraphs         1
wire lines         2
bytes on the wire  33
widest line        18
T
expect compose-depth 0 compose --width 20 --depth 1 -

# leading marks give the depth; CRLF line ends; dots doubled; the report beside a file
printf '> hi\r\n.x\r\n' >text
: >in
printf '> hi\r\n..x\r\n.\r\n' >wire-wanted
cat >out <<'T'
paragraphs         2
wire lines         2
bytes on the wire  14, end mark included
widest line        4
T
: >err
rm -f wire
expect compose-marks 0 compose --width 20 --marks --dot --wire wire text
cmp wire wire-wanted || failed=$((failed + 1))

# a refused line is named, with its fault and what went down before it, and nothing is written
rm -f wire
printf 'ok\nfine\000x\n' >in
: >out
cat >err <<'T'
refused            line 2: a byte that may not be text (cause 7) in the composer (layer 1), level 0, place 6
gone down before   1 paragraphs in 1 wire lines; 4 bytes in all
flowed: the mail was not composed; nothing was written
T
expect compose-refused 1 compose --width 998 --wire wire
[ -e wire ] && { echo "FAILED compose-refused: wrote a file"; failed=$((failed + 1)); }

# no space in the 999 letters of a line, and none in its first 998
{
    head -c 998 /dev/zero | tr '\0' a
    echo
} >in
{
    head -c 998 /dev/zero | tr '\0' a
    printf '\r\n'
} >out
cat >err <<'T'
paragraphs         1
wire lines         1
bytes on the wire  1000
widest line        998
T
expect compose-998 0 compose --width 20
head -c 999 /dev/zero | tr '\0' a >in
: >out
cat >err <<'T'
refused            line 1: the text cannot be folded into lines (cause 9) in the composer (layer 1), level 0, place 998
gone down before   0 paragraphs in 0 wire lines; 0 bytes in all
flowed: the mail was not composed; nothing was written
T
expect compose-999 1 compose --width 20

# a mail far longer than its text: the memory grows
for _ in $(seq 2000); do echo a; done >in
for _ in $(seq 2000); do printf '%s a\r\n' "$(printf '>%.0s' $(seq 100))"; done >out
cat >err <<'T'
paragraphs         2000
wire lines         2000
bytes on the wire  208000
widest line        102
T
expect compose-long 0 compose --width 20 --depth 100

# a line quoted too deep
printf '%s a\n' "$(printf '>%.0s' $(seq 101))" >in
: >out
cat >err <<'T'
refused            line 1: the quote depth is over 100 (cause 3) in the composer (layer 1), level 0, place 0
gone down before   0 paragraphs in 0 wire lines; 0 bytes in all
flowed: the mail was not composed; nothing was written
T
expect compose-deep 1 compose --width 20 --marks

# an empty text is an empty mail
: >in
: >out
cat >err <<'T'
paragraphs         0
wire lines         0
bytes on the wire  0
widest line        0
T
expect compose-empty 0 compose --width 72

: >out
echo "flowed: compose wants a --width (flowed --help tells the usage)" >err
expect compose-no-width 1 compose
echo "flowed: --width wants a number from 20 to 998, not 19 (flowed --help tells the usage)" >err
expect compose-19 1 compose --width 19
echo "flowed: --width wants a number from 20 to 998, not 999 (flowed --help tells the usage)" >err
expect compose-999-wide 1 compose --width 999
echo "flowed: --width wants a number from 20 to 998, not wide (flowed --help tells the usage)" >err
expect compose-wide 1 compose --width wide
echo "flowed: --width wants a number from 20 to 998 (flowed --help tells the usage)" >err
expect compose-width-what 1 compose --width
echo "flowed: --depth wants a number from 0 to 100, not 101 (flowed --help tells the usage)" >err
expect compose-101 1 compose --width 20 --depth 101
echo "flowed: --marks and --depth do not go together (flowed --help tells the usage)" >err
expect compose-both 1 compose --width 20 --depth 1 --marks
echo "flowed: unknown option --flow (flowed --help tells the usage)" >err
expect compose-unknown 1 compose --flow
echo "flowed: more than one text: b (flowed --help tells the usage)" >err
expect compose-two 1 compose --width 20 a b

# help names every option
for word in carry --lf --wire compose --width --dot --depth --marks --help 'exit status'; do
    ran=$((ran + 1))
    "$flowed" --help | grep -qF -e "$word" || { echo "FAILED help: no $word"; failed=$((failed + 1)); }
done

for peer in dot_peer flowed_peer; do
    python3 "$top/tests/$peer.py" "$flowed" || failed=$((failed + 1))
    ran=$((ran + 1))
done
echo "command line: $ran checks, $failed failed"
[ "$failed" = 0 ]
