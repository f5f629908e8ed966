#!/bin/sh
# Measures this code beside isdb-rs and prints a table. Run it as `make bench`, which proves and links what is measured; WRITE=1 also writes
# docs/BENCH.md, with the machine and the versions.
set -eu
cd "$(dirname "$0")/.."
: "${RT:=rt}" "${ISDB_RS:=../shared/docs/src}" "${WRITE:=}"
export ISDB_RS
# isdb-rs is measured as it is, with its own loop delay.
unset LOOP_DELAY
work=target/bench
command -v cargo >/dev/null || { echo "bench: cargo is not here, so isdb-rs cannot be built and there is nothing to measure beside"; exit 1; }
[ -f "$ISDB_RS/crates/isdb-frontend/src/fixed.rs" ] || { echo "bench: ISDB_RS is to be the path to isdb-rs, commit 754ed06c49"; exit 1; }

mkdir -p "$work"
(cd oracle && cargo build --offline --quiet --release)
(cd bench && cargo build --offline --quiet --release)
if ! bench/target/release/bench target/bin/symbols oracle/target/release/oracle "$work/recording" >"$work/table"; then
    cat "$work/table"
    exit 1
fi
cat "$work/table"
[ -n "$WRITE" ] || exit 0

# Asked before docs/BENCH.md is opened for writing, which would itself count as a change.
code=$(git describe --always --dirty 2>/dev/null || echo 'not in a repository')
{
    cat <<END
# Measurements

\`make bench WRITE=1\` measures and writes this file.

| | |
|---|---|
| machine | $(sed -n 's/^model name[^:]*: //p' /proc/cpuinfo | head -n 1), $(grep -c '^processor' /proc/cpuinfo) processors |
| date | $(date -u +%Y-%m-%d) |
| code | $code |
| kit | $($RT version) |
| isdb-rs | commit 754ed06c49, by $(rustc --version), opt-level 3 |

One program measures both sides in one run, on the same input: noise of 12 bits, under a sheet of ISDB-S (40 MHz, 28.86 Mbaud, roll-off 0.35). Each figure
is the least of nine rounds, in which the two take turns; isdb-rs's \`Frontend::process\` and \`Params::validate\` are called as they are, this code
through the archive. A block of 1 is a call for each pair.

The last line is of whole programs, from start to end, the least of five rounds: \`oracle symbols\` (oracle/driver), a plain program over isdb-rs, and the
symbol program. Both read the same file of a million pairs and write to /dev/null; before they are measured they have to print the same list.

What counts is the ratio: how many times as fast this code is. Where the linker puts the code moves it too, in short calls by up to 15 percent: two versions of
the code are compared at several places, by one build of the bench.

END
    sed 's/^/    /' "$work/table"
} >docs/BENCH.md
echo "bench: docs/BENCH.md is written"
