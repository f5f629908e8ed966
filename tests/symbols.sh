#!/bin/sh
# symbols.sh [PROGRAM]: runs the symbol program on inputs that are made here and compares what it prints with what docs/RULES.md, 7, asks for.
# Prints 'N cases, M wrong', and before it each case that is wrong. Needs nothing but a POSIX shell and its usual tools.
set -u
program=${1:-target/bin/symbols}
[ -x "$program" ] || { echo "no $program: run 'make symbols' first" >&2; exit 2; }
dir=$(mktemp -d) || exit 2
trap 'rm -rf "$dir"' EXIT
cases=0
wrong=0

# ---- the parts of an input

sheet=4,0,33554432,32883343,34225520,8,0,0,0,0,335544,262144,16384,4,8,6,12,24
one='0,0,1000,-1000,0,0,1000,-1000,1024,33554432,1000,-1000,0,0,1000,-1000,16,-16,0,15896'
two='2,0,-1000,1000,0,0,-1000,1000,1024,33554432,-1000,1000,0,0,-1000,1000,-16,16,0,15896'

# repeat N TEXT: a line, N times
repeat() {
    awk -v n="$1" -v t="$2" 'BEGIN { for (i = 0; i < n; i++) print t }'
}

# long N BYTE: N times a byte, with no line feed
long() {
    awk -v n="$1" -v b="$2" 'BEGIN { for (i = 0; i < n; i++) printf "%s", b }'
}

{
    echo "$sheet"
    repeat 64 16384,0,0,0
    repeat 64 0,0,0,0
    repeat 64 16384,0,0,0
} >"$dir/head"
printf '1000,-1000\n0,0\n-1000,1000\n' >"$dir/pairs"
cat "$dir/head" "$dir/pairs" >"$dir/whole"
printf '%s\n%s\n' "$one" "$two" >"$dir/symbols"

# with N TEXT: the whole input with line N in place of its own
with() {
    awk -v n="$1" -v t="$2" 'NR == n { print t; next } { print }' "$dir/whole"
}

# put N VALUE: the sheet's line with another field in the place of its N-th
put() {
    echo "$sheet" | awk -F, -v OFS=, -v n="$1" -v v="$2" '{ $n = v; print }'
}

# ---- a case

# expect NAME TEXT: the input is in $dir/in; the output has to be TEXT with a line feed, and nothing on standard error
expect() {
    cases=$((cases + 1))
    "$program" <"$dir/in" >"$dir/out" 2>"$dir/err"
    printf '%s\n' "$2" >"$dir/want"
    if cmp -s "$dir/out" "$dir/want" && [ ! -s "$dir/err" ]; then return; fi
    wrong=$((wrong + 1))
    echo "wrong: $1: printed '$(tail -n 1 "$dir/out" | cut -c 1-80)', not '$(tail -n 1 "$dir/want")'"
}

# same NAME FILE: what was printed is in $dir/got, and has to be $dir/FILE
same() {
    cases=$((cases + 1))
    if cmp -s "$dir/got" "$dir/$2"; then return; fi
    wrong=$((wrong + 1))
    echo "wrong: $1"
}

# refused NUMBER LINE TEXT: TEXT as that line of the whole input is refused so
refused() {
    with "$2" "$3" >"$dir/in"
    expect "line $2 '$(printf '%s' "$3" | cut -c 1-40)'" "refused,$1,$2"
}

# judged NUMBER TEXT: the sheet's line as TEXT is refused by judging, which names no line
judged() {
    with 1 "$2" >"$dir/in"
    expect "sheet '$2'" "refused,$1,0"
}

# ---- the whole case

whole="$one
$two
end,3,2,16777216"
cp "$dir/whole" "$dir/in"
expect 'the whole case' "$whole"
cp "$dir/head" "$dir/in"
expect 'no pairs' 'end,0,0,0'

# ---- 18: wrong form or another number of fields, at the first and the last line of each part

for line in 1 2 65 66 129 130 193; do
    for text in '' 1 1,2,3 1,2,3,4,5 1,2,3,4, ,1,2,3 1,,2,3 01,2,3,4 1,2,3,00 -0,2,3,4 1,2,3,-0 -01,2,3,4 +1,2,3,4 ' 1,2,3,4' '1, 2,3,4' '1,2,3,4 ' \
        '"1",2,3,4' 1.0,2,3,4 1e3,2,3,4 0x1,2,3,4 -,2,3,4 --1,2,3,4 1-,2,3,4 '1;2;3;4' a,b,c,d é,2,3,4 '1,2,3,٣' \
        "1,2,3,4$(printf '\r')" "1,2,3,4$(printf '\t')"; do
        refused 18 $line "$text"
    done
done
refused 18 1 "$sheet,"
refused 18 1 "$sheet,0"
refused 18 1 "${sheet%,24}"
refused 18 1 "4,0,33554432,32883343,34225520,8,0,0,0,0,335544,262144,16384,4,8,6,12,024"
for text in '' 1 1, ,1 1,2,3 01,2 1,-0 -0,1 +1,2 '1 ,2' '1,2 ' 1.5,2 x,y - -,- , "1,2$(printf '\r')" é,1; do
    with 194 "$text" >"$dir/in"
    expect "pair '$text' at 194" refused,18,194
    with 195 "$text" >"$dir/in"
    expect "pair '$text' at 195" "$one
refused,18,195"
    with 196 "$text" >"$dir/in"
    expect "pair '$text' at 196" "$one
refused,18,196"
    { cat "$dir/whole"; printf '%s\n' "$text"; } >"$dir/in"
    expect "pair '$text' at 197" "$one
$two
refused,18,197"
done

# A NUL byte, which awk may not carry.
for line in 1 2 66 130 193 194; do
    { head -n $((line - 1)) "$dir/whole"; printf '1,\000,3,4\n'; tail -n +$((line + 1)) "$dir/whole"; } >"$dir/in"
    expect "NUL at line $line" "refused,18,$line"
done
printf '\000' >"$dir/in"
expect 'NUL alone' refused,18,1
printf '\357\273\277' | cat - "$dir/whole" >"$dir/in"
expect 'byte order mark' refused,18,1

# ---- 19: a value outside its type, also where it has more digits than any type; 18 comes before it

number=0
for ends in '4294967296 -1' '2147483648 -2147483649' '4294967296 -1' '4294967296 -1' '4294967296 -1' '256 -1' '32768 -32769' '256 -1' '32768 -32769' '256 -1' \
    '2147483648 -2147483649' '4294967296 -1' '4294967296 -1' '256 -1' '256 -1' '256 -1' '256 -1' '256 -1'; do
    number=$((number + 1))
    for value in $ends 18446744073709551616 184467440737095516160000000000000000000004 -99999999999999999999999; do
        refused 19 1 "$(put $number "$value")"
    done
    refused 18 1 "$(echo "$sheet" | awk -F, -v OFS=, -v n=$number '{ $1 = 4294967296; $n = "x"; print }')"
done
refused 19 1 "3,0,33554432,32883343,34225520,8,0,0,0,0,335544,262144,16384,4,8,6,12,256"
for line in 2 65 66 129 130 193; do
    refused 19 $line 2147483648,0,0,0
    refused 19 $line 0,0,0,-2147483649
    refused 18 $line 2147483648,0,0
    refused 18 $line 2147483648,0,0,x
    refused 18 $line x,0,0,2147483648
done
for text in 32768,0 0,32768 -32769,0 0,-32769 65536,0 0,4294967296; do
    with 194 "$text" >"$dir/in"
    expect "pair '$text' at 194" refused,19,194
    { cat "$dir/whole"; echo "$text"; } >"$dir/in"
    expect "pair '$text' at 197" "$one
$two
refused,19,197"
done
with 194 32768,x >"$dir/in"
expect '18 before 19 in a pair' refused,18,194

# ---- 1 at line 1, and judging, which comes after line 193 and before line 194 is read

for taps in 0 1 2 3 5 63 65 66 4294967295; do
    refused 1 1 "$taps,0,33554432,32883343,34225520,8,0,0,0,0,335544,262144,16384,4,8,6,12,24"
done
for line in 2 66 130; do
    with $line 131072,0,0,0 >"$dir/in"
    expect "coefficient too large at $line" refused,3,0
    with $((line + 63)) 131071,1,0,0 >"$dir/in"
    expect "sum too large at $((line + 63))" refused,4,0
done
# Ten taps: the first and the last are none of the detector's, so h and g have to be 0 there, and k need not be.
none=0,0,0,0,0,0,0,0,0,0
for row in 1,0,0,0,0,0,0,0,0,0 0,0,0,0,0,0,0,0,0,-1; do
    { echo "10${sheet#4}"; echo $row; repeat 191 $none; } >"$dir/in"
    expect "first row of h outside the detector: $row" refused,5,0
    { echo "10${sheet#4}"; repeat 127 $none; echo $row; repeat 64 $none; } >"$dir/in"
    expect "last row of g outside the detector: $row" refused,5,0
    { echo "10${sheet#4}"; repeat 191 $none; echo $row; } >"$dir/in"
    expect "last row of k outside the detector: $row" end,0,0,0
done

for period in '4 16777216' '4 33554433' '5 67108864' '5 33554431' '3 32883342' '3 34225521'; do
    judged 6 "$(put $period)"
done
# Each field of 7 with the numbers next to its range, and then those at its ends.
for field in '15 1 9' '16 16' '17 7 16' '12 16777216' '11 -1 4194304' '6 31' '8 41' '10 41'; do
    set -- $field
    place=$1
    shift
    for value; do
        judged 7 "$(put "$place" "$value")"
    done
done
for field in '15 2 8' '16 0 15' '17 8 15' '12 0 16777215' '11 0 4194303' '6 0 30' '8 0 40' '10 0 40' '14 0 63' '18 1 24'; do
    set -- $field
    place=$1
    shift
    for value; do
        with 1 "$(put "$place" "$value")" | head -n 193 >"$dir/in"
        expect "field $place at $value" end,0,0,0
    done
done
judged 8 "$(put 14 64)"
judged 8 "$(put 14 255)"
# 29 is the last that is judged: it comes behind 8.
for delay in 0 25 255; do
    judged 29 "$(put 18 $delay)"
    judged 8 "4,0,33554432,32883343,34225520,8,0,0,0,0,335544,262144,16384,64,8,6,12,$delay"
done
with 1 4,0,33554432,32883343,34225520,8,0,0,0,0,335544,262144,16384,64,8,6,12,24 | awk 'NR == 194 { print "x"; next } { print }' >"$dir/in"
expect 'judging before line 194' refused,8,0
with 1 "$(put 18 25)" | awk 'NR == 194 { print "x"; next } { print }' >"$dir/in"
expect 'judging the delay before line 194' refused,29,0

# ---- the delay: the errors of the first symbol change the gain, which stands at 1024 until they act

# Of the whole case at a delay of 1 it is the second symbol that they change; at 2 it would be the third.
with 1 "$(put 18 1)" >"$dir/in"
expect 'the whole case at a delay of 1' "$one
2,0,-1000,1000,0,0,-1000,1000,1027,33554432,-1003,1003,0,0,-1003,1003,-16,16,0,15893
end,3,2,16777216"
with 1 "$(put 18 2)" >"$dir/in"
expect 'the whole case at a delay of 2' "$whole"
delay=1
while [ $delay -le 24 ]; do
    { put 18 $delay; tail -n +2 "$dir/head"; repeat 60 1000,-1000; } | "$program" | awk -F, '$9 != 1024 { print NR - 1; exit }' >"$dir/got"
    echo $delay >"$dir/want"
    same "a gain that changes after $delay symbols" want
    delay=$((delay + 1))
done

# ---- 20, and a last line without a line feed: the whole input, cut at every byte

# cut_at N LINES END: the first N bytes, which have so many whole lines, the last of which ends at byte END
cut_at() {
    if [ "$1" -eq 0 ]; then : >"$dir/in"; else dd if="$dir/whole" bs="$1" count=1 >"$dir/in" 2>/dev/null; fi
    shown=
    if [ "$2" -gt 193 ]; then shown="$one
"; fi
    if [ "$2" -gt 195 ]; then shown="$shown$two
"; fi
    if [ "$1" -ne "$3" ]; then last="refused,18,$(($2 + 1))"
    elif [ "$2" -lt 193 ]; then last="refused,20,$(($2 + 1))"
    else
        case $2 in
        193) last=end,0,0,0 ;;
        194) last=end,1,1,16777216 ;;
        195) last=end,2,1,0 ;;
        *) last=end,3,2,16777216 ;;
        esac
    fi
    expect "cut at byte $1" "$shown$last"
}
lines=0
n=0
end=0
for next in $(awk '{ e += length($0) + 1; print e }' "$dir/whole"); do
    while [ $n -lt "$next" ]; do
        cut_at $n $lines $end
        n=$((n + 1))
    done
    lines=$((lines + 1))
    end=$next
done
cut_at $n $lines $end
for lines in 1 2 64 65 66 128 129 130 191 192; do
    head -n $lines "$dir/whole" >"$dir/in"
    expect "$lines lines" "refused,20,$((lines + 1))"
done

# ---- 1,024 bytes before a line feed, and 1,025

for line in 1 2 193 194; do
    { head -n $((line - 1)) "$dir/whole"; long 1025 1; echo; } >"$dir/in"
    expect "1,025 bytes at line $line" "refused,18,$line"
done
# A line of 1,024 bytes is read: right in form, it is refused for its last number. With one digit more it is too long.
for part in '1 34 1,1,1,1,1,1,1,1,1,1,1,1,1,1,1,1,1,' '2 6 1,1,1,' '193 6 1,1,1,' '194 2 1,'; do
    set -- $part
    { head -n $(($1 - 1)) "$dir/whole"; printf %s "$3"; long $((1024 - $2)) 9; echo; } >"$dir/in"
    expect "1,024 bytes that are right in form at line $1" "refused,19,$1"
    { head -n $(($1 - 1)) "$dir/whole"; printf %s "$3"; long $((1025 - $2)) 9; echo; } >"$dir/in"
    expect "1,025 bytes that would be at line $1" "refused,18,$1"
done
# A line that goes on for 20 MB is refused like any that is too long. It has an end here, so that a program that kept it could not fill the disk.
for line in 1 2 194; do
    { head -n $((line - 1)) "$dir/whole"; dd if=/dev/zero bs=100000 count=200 2>/dev/null | tr '\000' 1; } | "$program" 2>&1 |
        head -n 2 | cut -c 1-80 >"$dir/got"
    echo "refused,18,$line" >"$dir/want"
    same "a line of 20 MB at line $line" want
done

# ---- many blocks: the same however the bytes come, and with the symbols of all pairs before a refusal

awk 'BEGIN { for (i = 0; i < 9000; i++) print (i * 7919) % 65536 - 32768 "," (i * 104729) % 65536 - 32768 }' >"$dir/many"
cat "$dir/head" "$dir/many" >"$dir/in"
"$program" <"$dir/in" >"$dir/all"
for bytes in 1 7 1000 65535 65536 65537; do
    if [ $bytes -gt 1 ]; then cp "$dir/in" "$dir/piped"; cp "$dir/all" "$dir/piped.all"
    else head -n 250 "$dir/in" >"$dir/piped"; "$program" <"$dir/piped" >"$dir/piped.all"; fi
    dd if="$dir/piped" bs=$bytes 2>/dev/null | "$program" >"$dir/got"
    same "pieces of $bytes bytes" piped.all
done
sed '$d' "$dir/all" >"$dir/want.symbols"
for extra in x,y 32768,0; do
    { cat "$dir/in"; echo $extra; } | "$program" >"$dir/got.all"
    sed '$d' "$dir/got.all" >"$dir/got"
    same "symbols before '$extra'" want.symbols
    case $extra in x,y) echo refused,18,9194 ;; *) echo refused,19,9194 ;; esac >"$dir/want.last"
    tail -n 1 "$dir/got.all" >"$dir/got"
    same "refusal of '$extra'" want.last
done
for pairs in 1023 1024 1025 2048 2049; do
    { cat "$dir/head"; head -n $pairs "$dir/many"; echo; } >"$dir/in2"
    { cat "$dir/head"; head -n $pairs "$dir/many"; } | "$program" | sed '$d' >"$dir/want.symbols"
    echo "refused,18,$((pairs + 194))" >>"$dir/want.symbols"
    "$program" <"$dir/in2" >"$dir/got"
    same "a refusal after $pairs pairs" want.symbols
done

# ---- the memory is the same however long the input is: 12 MB of pairs, with 8 MB for the program and the C library together

if (ulimit -v 8000) 2>/dev/null; then
    { cat "$dir/head"; repeat 900000 -32768,-32768; } | (ulimit -v 8000; exec "$program") | tail -n 1 >"$dir/got"
    echo end,900000,450000,0 >"$dir/want"
    same 'a long input in little memory' want
fi

# ---- the system fails: a message, and no last line; a reader that has gone: nothing

# fails NAME: what was said is in $dir/err, and what was printed in $dir/got
fails() {
    cases=$((cases + 1))
    if [ -s "$dir/err" ] && ! grep -q '^end\|^refused' "$dir/got"; then return; fi
    wrong=$((wrong + 1))
    echo "wrong: $1"
}
"$program" <&- >"$dir/got" 2>"$dir/err"
fails 'standard input is closed'
"$program" </ >"$dir/got" 2>"$dir/err"
fails 'standard input is a directory'
: >"$dir/got"
"$program" <"$dir/in" 2>"$dir/err" >&-
fails 'standard output is closed'
if [ -w /dev/full ]; then
    "$program" <"$dir/in" 2>"$dir/err" >/dev/full
    fails 'standard output is full'
fi
quiet() {
    cases=$((cases + 1))
    if [ ! -s "$dir/err" ]; then return; fi
    wrong=$((wrong + 1))
    echo "wrong: $1"
}
"$program" <"$dir/in" 2>"$dir/err" | head -n 1 >/dev/null
quiet 'a reader that goes'
(trap '' PIPE; "$program" <"$dir/in" 2>"$dir/err") | head -n 1 >/dev/null
quiet 'a reader that goes, with the signal ignored'

echo "$cases cases, $wrong wrong"
[ $wrong -eq 0 ]
