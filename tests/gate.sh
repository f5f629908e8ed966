#!/bin/sh
# The gate, run as `make test`: `rt ci`, which proves every crate, tries the must-fail edits and runs each program as two compilers build it; then the cases
# of tests/symbols.sh, on the symbol program that rt ci has built. What rt ci prints is passed on as it comes, and its last line, 'N passed, 0 failed', is held
# back until the cases have passed. So the last line is about all of it: where something fails it counts a failure, and the status is not 0.
# An edit that rt ci cannot apply or read is bad: it shows nothing of a contract. rt ci passes it and counts it in its line 'rt: ok'; here it fails.
set -u
cd "$(dirname "$0")/.." || exit 2
: "${RT:=rt}"
. tools/made.sh
passed=0

# failed STATUS TEXT [N]: ends the gate with one failure, or with so many
failed() {
    echo "gate: $2"
    echo "$passed passed, ${3:-1} failed"
    exit "$1"
}

# bad_edits LINE: how many edits are bad by the line 'rt: ok; ..; must-fail edits: N refused, M bad; ..', which leaves M out where there is none
bad_edits() {
    printf '%s;\n' "$1" | sed -n 's/.*, \([0-9][0-9]*\) bad[^a-z].*/\1/p'
}

# What rt ci prints goes through a pipe outside the checkout, of which rt ci sees every file.
dir=$(mktemp -d) || failed 2 "no temporary folder"
ci=
trap 'rm -rf "$dir"' EXIT
trap '[ -z "$ci" ] || { kill "$ci"; wait "$ci"; } 2>/dev/null; exit 1' HUP INT TERM
mkfifo "$dir/printed" || failed 2 "no pipe in a temporary folder"
sources=$(sum_of_sources)
$RT ci >"$dir/printed" &
ci=$!
# A line that could be the last is held until another one comes. The shell reads line by line; sed or awk could wait until a buffer is full.
last=
ok=
bad=
while IFS= read -r line || [ -n "$line" ]; do
    [ -z "$last" ] || printf '%s\n' "$last"
    last=
    case $line in
    [0-9]*' passed, '[0-9]*' failed')
        last=$line
        continue
        ;;
    'rt: ok'*) ok=yes bad=$(bad_edits "$line") ;;
    esac
    printf '%s\n' "$line"
done <"$dir/printed"
wait "$ci"
status=$?
ci=

[ -z "$last" ] || passed=${last%% *}
case $status:$last in
0:*' passed, 0 failed') ;;
0:*) failed 1 "rt ci ended without a last line that says that all passed" ;;
*:*' passed, 0 failed' | *:) failed $status "rt ci ended with status $status, before it was done" ;;
*)
    printf '%s\n' "$last"
    exit $status
    ;;
esac
[ -n "$ok" ] || failed 1 "rt ci has no line 'rt: ok', which would count bad edits"
[ "${bad:-0}" -eq 0 ] || failed 1 "bad must-fail edits: $bad" "$bad"

# rt ci leaves each program in its crate's out/.
for program in crates/*/src/main.rt; do
    name=${program#crates/}
    name=${name%%/*}
    take "$sources" "$name" || failed 1 "rt ci left no program crates/$name/out/$name"
done
sh tests/symbols.sh target/bin/symbols || failed 1 "cases of the symbol program failed"
printf '%s\n' "$last"
