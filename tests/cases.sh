#!/bin/sh
# What no contract can say of the program `study`: that it reads its file and its streams as the definition says.
# Builds it, runs it on each case and compares what it prints and its status. Prints what it compared; ends with status 1 at the first that differs.
set -eu
root=$(cd "$(dirname "$0")/.." && pwd)
"$root/tests/build.sh"
study=$root/crates/study/out/study
four=$root/crates/study/data/feeder.arc
work=$(mktemp -d)
trap 'rm -rf "$work"' EXIT
cd "$work"
count=0

# bytes HEX...: writes these bytes
bytes() {
    for b in "$@"; do
        printf "\\$(printf '%03o' "0x$b")"
    done
}

# same NAME: compares `got` with `want`, and the status with 0
same() {
    if [ "$(cat status)" != 0 ] || ! cmp -s want got; then
        echo "case '$1' differs: status $(cat status)"
        diff want got | head -n 10 || true
        exit 1
    fi
    count=$((count + 1))
}

# run NAME: study on ./feeder.arc, with `in` as standard input
run() {
    "$study" < in > got && echo 0 > status || echo $? > status
    same "$1"
}

# loads NAME WANT: a load alone
loads() {
    : > in
    printf '%s' "$2" > want
    run "$1"
}

rm -f feeder.arc
loads 'a missing file counts as an empty one' 'E 1 0
'
printf 'X\nD 1\n' > in
printf 'E 1 0\n' > want
run 'after a refused load no line is answered'
: > feeder.arc
loads 'an empty file' 'E 1 0
'
bytes 00 04 00 > feeder.arc
loads 'a header cut short' 'E 1 2
'
bytes 04 01 00 01 > feeder.arc
loads '1,025 sections' 'E 2 0
'
bytes 00 01 05 A1 00 > feeder.arc
loads 'a switching time of 1,441' 'E 2 2
'
head -c 63 "$four" > feeder.arc
loads 'the last field cut short' 'E 1 62
'
{ cat "$four"; printf 'x'; } > feeder.arc
loads 'a byte after the last record' 'E 7 64
'
{ cat "$four"; head -c 200000 /dev/zero; } > feeder.arc
loads 'many bytes after the last record' 'E 7 64
'
bytes 00 01 00 01 04 40 65 08 00 00 00 00 00 > feeder.arc
loads '168.25 hours' 'E 5 5
'
bytes 00 02 00 01 00 40 03 41 1F 43 > feeder.arc
loads 'a name byte out of range' 'E 6 8
'
bytes 00 01 00 01 04 40 65 00 00 00 00 00 00 > feeder.arc
printf 'X\nL 0\nD 0\n' > in
printf 'E 25\nnone\n0\n' > want
run '168 hours, and no customers'

cp "$four" feeder.arc
cp "$root/crates/study/stdin" in
cp "$root/crates/study/stdout" want
run 'the four-section example'
: > in
: > want
run 'no input'
printf 'D 1' > in
printf '84000\n' > want
run 'a last line without a line feed'
printf 'D 1\n\n' > in
printf '84000\nE 8\n' > want
run 'an empty line, and no last one'
printf 'D 1\r\nD 01\nD  1\nD 1 \n D 1\nd 1\nD\nD 1 2\nX 1\nD +1\nD 4294967296\nD 4294967295\n' > in
printf 'E 8\nE 8\nE 8\nE 8\nE 8\nE 8\nE 8\nE 8\nE 8\nE 8\nE 8\nE 20\n' > want
run 'lines of none of the forms'
printf '\000\377\n%064d\n%065d\nD 2\n' 0 0 > in
printf 'E 8\nE 8\nE 8\n120000\n' > want
run 'bytes that are no text, and lines of 64 and 65 bytes'
{ head -c 100000 /dev/zero | tr '\0' 'D'; printf '\nD 1\n'; } > in
printf 'E 8\n84000\n' > want
run 'one line longer than any block'
{ head -c 70 /dev/zero | tr '\0' ' '; printf 'D 1\n'; } > in
printf 'E 8\n' > want
run 'a long line is not taken as two'
i=0
: > in
: > want
while [ $i -lt 6000 ]; do
    printf 'D 2\nG 1\n%s\n' "$i" >> in
    printf '120000\n12000 30 360000\nE 8\n' >> want
    i=$((i + 1))
done
run 'lines across the ends of blocks'
printf 'S 2 0 672 4000 4000\nS 2 0 673 0 0\nS 9 100001 1 0 0\nS 9 0 1 0 0\nF 9\nU 1\nU 0\nG 0\nG 2\nX\n' > in
printf 'ok\nE 5\nE 5\nE 20\nE 20\nE 22\nE 23\nE 23\nE 21\n700 66000 4510\n' > want
run 'refused changes, and the order of checks'

# pieces: a line that comes in pieces is one line, and its answer comes without the end of the input
mkfifo lines answers
"$study" < lines > answers &
exec 3> lines 4< answers
printf 'D ' >&3
sleep 0.2
printf '1\nG' >&3
timeout 10 head -c 6 <&4 > got || true
printf '84000\n' > want
echo 0 > status
same 'an answer comes as soon as its line is complete'
printf ' 1\n' >&3
exec 3>&-
timeout 10 cat <&4 > got
wait $! && echo 0 > status || echo $? > status
printf '12000 30 360000\n' > want
same 'the rest of a line comes later'

echo "cases of study: $count compared, none differ"
