#!/bin/sh
# Builds isdb-rs's front end unchanged, and 23 times with another loop delay, compares what it answers with what this repository answers, and says how many
# answers were compared and how many differed. Run it as `make oracle`. SCALE=10 makes every part ten times as large, the float samples excepted: of these
# STEP=1 takes all.
set -eu
cd "$(dirname "$0")/.."
: "${RT:=rt}" "${ISDB_RS:=../shared/docs/src}" "${SCALE:=1}" "${STEP:=16}"
export RT
source=$ISDB_RS/crates/isdb-frontend/src
work=target/oracle
# isdb-rs's own delay is 24. These it has only where it is built with another number, which LOOP_DELAY says to the build.
shorter="1 2 3 4 5 6 7 8 9 10 11 12 13 14 15 16 17 18 19 20 21 22 23"
unset LOOP_DELAY

absent() {
    echo "oracle: $1"
    echo "oracle: nothing was compared. Without the Rust every answer rests on the definitions in specs/ alone, which say what docs/RULES.md says;"
    echo "oracle: what is stored of the Rust's answers in crates/replay_*/stdin is still replayed by make test."
    exit 1
}
command -v cargo >/dev/null || absent "cargo is not here, so isdb-rs cannot be built"
[ -f "$source/fixed.rs" ] || absent "$source/fixed.rs is missing: ISDB_RS is to be the path to isdb-rs, commit 754ed06c49"

# ---- build

mkdir -p "$work"
sums=$(pwd)/oracle/sources.sha256
(cd "$source" && sha256sum --check --quiet "$sums") || echo "oracle: the sources are not those of commit 754ed06c49; what differs may be theirs"
echo "oracle: building isdb-rs, and once more with every overflow a panic .."
for profile in release checked; do
    (cd oracle && cargo build --offline --quiet --profile $profile)
done
echo "oracle: building isdb-rs with each other loop delay .."
for delay in $shorter; do
    (cd oracle && LOOP_DELAY=$delay cargo build --offline --quiet --profile delay --target-dir "target/delay-$delay")
done
echo "oracle: proving and linking the replay programs, the symbol program and the archive .."
sh tools/prove.sh "$work/check.out" replay_leaves replay_calls replay_floats symbols
sh tools/archive.sh
(cd oracle/archive && cargo build --offline --quiet --release)
rust=oracle/target/release/oracle
checked=oracle/target/checked/oracle

# ---- compare

compared=0 differed=0
count() { # NAME COMPARED DIFFERED
    echo "oracle: $1: $2 compared, $3 differed"
    compared=$((compared + $2)) differed=$((differed + $3))
}

differences() { # LINE
    echo "$1" | sed 's/.*compared, \([0-9]*\) differ.*/\1/'
}

# What a command writes goes through a replay program. Where one of the two fails, fewer answers were compared than should be, so nothing counts.
replayed() { # NAME PROGRAM COMMAND-AND-WORDS
    name=$1 program=$2
    shift 2
    rm -f "$work/failed"
    line=$({ "$@" || : >"$work/failed"; } | "target/bin/$program") || : >"$work/failed"
    [ ! -e "$work/failed" ] || { echo "oracle: $name: '$*' or $program failed"; exit 1; }
    count "$name" "${line%% *}" "$(differences "$line")"
}

# Runs by isdb-rs at every delay, each with its own seed. A driver fails where its isdb-rs and its reading of docs/RULES.md differ.
at_each_delay() { # COMMAND KIND COUNT
    for delay in $shorter; do
        "oracle/target/delay-$delay/delay/oracle" "$1" "$2" "$delay" "$3" || return 1
    done
    $checked "$1" "$2" 24 "$3"
}

# A program that compares by itself says so in one line: how many were compared, how many differed, and behind a semicolon of what kinds they were.
told() { # NAME PROGRAM-AND-WORDS
    name=$1
    shift
    line=$("$@") || { echo "oracle: $name: '$*' failed"; exit 1; }
    count "$name" "${line%% *}" "$(differences "$line")"
    echo "oracle:   ${line#*; }"
}

# The leaves: the whole cosine wheel and random calls of the arithmetic.
for seed in 1 2 3; do
    replayed "leaves, seed $seed" replay_leaves $checked leaves $seed $((1000000 * SCALE))
done

# Judging and the offset: sheets that were designed, at the ends of every range, and with faults next to every boundary.
for kind in designed extreme refused mixed; do
    replayed "judging and offsets, $kind sheets" replay_calls $checked calls $kind 1 $((6000 * SCALE))
done

# Offsets alone: accepted sheets, each asked for ties and their neighbours, its ends, and rests next to a half.
replayed "offsets, ties and ends among them" replay_calls $checked offsets 1 $((4000 * SCALE))

# The path: runs from a fresh start in blocks of all sizes, many of them with outputs for some of their pairs only and the rest offered again, 1.37 million
# symbols in all, with any number of clips from 0 to 12, and 17,000 numbers at an end of 16 bits or just past it under the clipping sheets. The driver also
# holds each answer of isdb-rs against its own reading, and the clips that the reading counts against those that follow from isdb-rs's symbols.
for kind in designed extreme mixed clipping; do
    replayed "starting, blocks and readings, $kind sheets" replay_calls $checked path $kind 1 $((700 * SCALE))
done

# The same at every delay from 1 to 24, by isdb-rs with that number for its constant, and each time held against the reading too. Of 1,920 sheets 1,779 are
# accepted and run, at least 70 at each delay; the others are refused.
for kind in designed extreme mixed clipping; do
    replayed "starting, blocks and readings at each delay, $kind sheets" replay_calls at_each_delay path $kind $((20 * SCALE))
done

# Retunes: lists of blocks, asks and commits from a fresh start, 21,420 in all with those of the next part, 248 of them under a sheet that starting refuses:
# 344,888 commits are accepted, and 552,210 refused by every number that can refuse one. The driver also holds each list against isdb-rs, as far as that can
# follow it, and against what docs/RULES.md says of lists (5.2 and 5.3).
retunes() { # KIND COUNT
    replayed "blocks, readings and retunes, $1 sheets" replay_calls $checked retunes "$1" 1 $(($2 * SCALE))
}
retunes small 9400
retunes clipping 7500
retunes extreme 1000
retunes designed 800
retunes mixed 800

# The same at every delay from 1 to 24.
for kind in small clipping extreme designed; do
    replayed "blocks, readings and retunes at each delay, $kind sheets" replay_calls at_each_delay retunes $kind $((20 * SCALE))
done

# Every number that the delay's field can hold, accepted or refused, by itself and behind a refusal that comes before it.
replayed "calls under every number for a delay" replay_calls $checked delays 1

# States that no run reaches, of any delay, good ones and broken ones, many next to the last sample that can be counted, 100,000 in all, with a short block or
# two and a reading for each; and 33,000 more that hold any sheet, each with an ask, a commit or two, two readings and a block.
for kind in extreme mixed; do
    replayed "calls on any state, $kind sheets" replay_calls $checked states $kind 1 $((50000 * SCALE))
done

# Floats: the samples of one in 16 of all 2^32 f32, and of all near a tie, a whole number or an end of what an f32 can be; STEP=1 takes every f32.
replayed "float samples, one f32 in $STEP and all that stand out" replay_floats $checked samples "$STEP"

# Designs at every corner, strange ones and ordinary ones, wherever isdb-rs answers with registers or a refusal of RULES 6.3; and designs that
# are judged with banks and gains.
replayed "registers of designs" replay_floats $checked floats designs 1 $((52000 * SCALE))
replayed "sheets of designs, judged" replay_floats $checked floats sheets 1 $((4000 * SCALE))
replayed "sheets of designs, judged, few taps" replay_floats $checked floats small 1 $((10000 * SCALE))

# The symbol program: planned inputs with every wrong line and number in every part, and random ones, most of them spoiled. The driver runs it and reads
# what it prints.
rm -f "$work/differs"
told "the symbol program" $checked against target/bin/symbols 1 $((5000 * SCALE)) "$work/differs"

# The archive, linked beside isdb-rs: runs in blocks of all sizes and with outputs that are too short for them, half of them with retunes between the blocks,
# states that are changed after them, and calls between them in which something is wrong.
told "calls through the archive" oracle/archive/target/release/compare 1 $((20000000 * SCALE))

# The Rust's two builds against each other: where they differ an overflow wrapped, and its answers are no measure.
same=0 other=0
seed=1
while [ $seed -le $((40 * SCALE)) ]; do
    for kind in designed extreme; do
        $rust recording $kind $seed 2000 >"$work/input"
        $rust symbols --state <"$work/input" >"$work/release"
        $checked symbols --state --blocks $seed <"$work/input" >"$work/checked"
        if cmp -s "$work/release" "$work/checked"; then same=$((same + 1)); else other=$((other + 1)); fi
    done
    seed=$((seed + 1))
done
echo "oracle: isdb-rs's two builds, one with its samples cut into other blocks: $same recordings alike, $other not"
[ $other -eq 0 ] || exit 1

echo "oracle: $compared answers compared, $differed differed"
[ $differed -eq 0 ]
