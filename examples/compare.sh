#!/bin/sh
# Builds the examples over the archive, runs them and the symbol program on recording.csv, and compares what each prints with what is stored: symbols.txt,
# dish_gain.txt or retune.txt. Run it as `make examples`, which proves and links the archive and the program.
set -eu
cd "$(dirname "$0")/.."
: "${CC:=cc}"
recording=examples/recording.csv list=examples/symbols.txt work=target/examples archive=$(pwd)/target/staticlib
whole="all $(grep -c -v '^end' $list) symbols and the end line"
failed=0
mkdir -p $work

# agrees NAME STORED WHAT: what it printed is in $work/printed
agrees() {
    if cmp -s $work/printed "$2"; then
        echo "examples: $1: $3 are those of $2"
        return
    fi
    failed=1
    echo "examples: $1: not what $2 has; the first line that differs: $(awk 'NR == FNR { want[FNR] = $0; next }
        $0 != want[FNR] { print FNR; found = 1; exit }
        END { if (!found) print FNR + 1 }' "$2" $work/printed)"
}

# absent WHAT: what was not compared must not look as if it were
absent() {
    failed=1
    echo "examples: $1"
}

if command -v "${CC%% *}" >/dev/null; then
    for name in one_by_one dish_gain retune; do
        $CC -std=c99 -O2 -Wall -Wextra -Wpedantic -Iinclude -o $work/$name examples/$name.c target/staticlib/libarchive.a -lm
    done
    $work/one_by_one $recording >$work/printed || failed=1
    agrees "one_by_one.c, one sample after another" $list "$whole"
    $work/dish_gain $recording >$work/printed || failed=1
    agrees "dish_gain.c, down to the gain that clips nothing" examples/dish_gain.txt "the clips at each gain"
    $work/retune $recording >$work/printed || failed=1
    agrees "retune.c, other loop gains on the way" examples/retune.txt "refusal, periods and spreads"
else
    absent "$CC, a C compiler, is not here: one_by_one.c, dish_gain.c and retune.c were not run"
fi

if command -v cargo >/dev/null; then
    (cd bindings/rust && HUNTELM_ARCHIVE=$archive cargo build --offline --quiet --release --example blocks)
    bindings/rust/target/release/examples/blocks $recording >$work/printed || failed=1
    agrees "blocks.rs, in blocks of 64" $list "$whole"
else
    absent "cargo is not here: blocks.rs was not run"
fi

target/bin/symbols <$recording >$work/printed || failed=1
agrees "the symbol program" $list "$whole"
exit $failed
