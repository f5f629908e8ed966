#!/bin/sh
# Runs tests/gate.sh with stand-ins for rt and for the symbol program's cases, and looks at its last line, its status and when its lines come.
# Prints 'N cases of the gate, M wrong', and before it each case that is wrong.
set -u
cd "$(dirname "$0")/.." || exit 2
dir=$(mktemp -d) || exit 2
trap 'rm -rf "$dir"' EXIT
cases=0
wrong=0
mkdir "$dir/tests" "$dir/tools"
cp tests/gate.sh "$dir/tests"
cp tools/made.sh "$dir/tools"
mkdir -p "$dir/crates/symbols/src"
: >"$dir/crates/symbols/src/main.rt"
: >"$dir/crates.txt"
cat >"$dir/rt" <<END
#!/bin/sh
cd "$dir" || exit 2
. ./\$1
END
chmod +x "$dir/rt"

# gate NAME STATUS LAST: version, ci and tests/symbols.sh are in $dir, and no program; the gate has to end with this status and print this line last
gate() {
    cases=$((cases + 1))
    rm -rf "$dir/crates/symbols/out" "$dir/target"
    RT=$dir/rt sh "$dir/tests/gate.sh" >"$dir/out" 2>&1
    ended=$?
    if [ $ended -eq "$2" ] && [ "$(tail -n 1 "$dir/out")" = "$3" ]; then return; fi
    wrong=$((wrong + 1))
    echo "wrong: $1: status $ended, and last '$(tail -n 1 "$dir/out")'"
}

# shows NAME PATTERN: some line of what was printed is so
shows() {
    cases=$((cases + 1))
    if grep -q "$2" "$dir/out"; then return; fi
    wrong=$((wrong + 1))
    echo "wrong: $1: no line '$2'"
}

# What rt ci does where all is well: it is given no words, builds the program, and says among its lines how many edits were refused and how many are bad.
echo 'echo kit' >"$dir/version"
built='[ $# -eq 1 ] || exit 2; mkdir -p crates/symbols/out; echo it >crates/symbols/out/symbols; echo "rt: a proved"'
ok='rt: ok; handles allowed: none; must-fail edits: 5 refused'
rest='every proof and must-fail edit was done in this run'
good="$built; echo '$ok; $rest'; echo '8 passed, 0 failed'"
echo "$good" >"$dir/ci"
echo 'echo "3 cases, 0 wrong of $1: $(cat "$1")"' >"$dir/tests/symbols.sh"
gate 'all is well' 0 '8 passed, 0 failed'
shows 'what rt said' "^$ok; $rest\$"
shows 'the cases' '^3 cases, 0 wrong of target/bin/symbols: it$'
cases=$((cases + 1))
if [ "$(grep -c passed "$dir/out")" -ne 1 ]; then
    wrong=$((wrong + 1))
    echo "wrong: the last line is printed twice"
fi

echo 'echo "wrong: a"; echo "3 cases, 1 wrong"; exit 1' >"$dir/tests/symbols.sh"
gate 'a case fails' 1 '8 passed, 1 failed'
shows 'the case that fails' '^wrong: a$'
rm "$dir/tests/symbols.sh"
gate 'no cases' 1 '8 passed, 1 failed'

# From here on the cases pass, and are not enough.
echo 'echo "3 cases, 0 wrong"' >"$dir/tests/symbols.sh"
echo 'echo "rt: FAILED: a b"; echo "6 passed, 2 failed"; exit 1' >"$dir/ci"
gate 'rt ci fails' 1 '6 passed, 2 failed'
echo 'echo "6 passed, 2 failed"; exit 2' >"$dir/ci"
gate 'rt ci fails by itself' 2 '6 passed, 2 failed'
echo 'echo "rt: a proved"; printf "rt: b pro"; kill -9 $$' >"$dir/ci"
gate 'rt ci is killed' 137 '0 passed, 1 failed'
shows 'half a line' '^rt: b pro$'
echo 'echo "rt: no crates.txt" >&2; exit 2' >"$dir/ci"
gate 'rt ci says nothing' 2 '0 passed, 1 failed'
echo 'echo "rt: a proved"' >"$dir/ci"
gate 'rt ci has no last line' 1 '0 passed, 1 failed'
echo "$good; echo more" >"$dir/ci"
gate 'rt ci goes on after its last line' 1 '0 passed, 1 failed'
shows 'a line that was not the last' '^8 passed, 0 failed$'
echo "$good; exit 1" >"$dir/ci"
gate 'rt ci counts no failure, and fails' 1 '8 passed, 1 failed'
echo "echo '$ok; $rest'; echo '8 passed, 0 failed'" >"$dir/ci"
gate 'rt ci leaves no program' 1 '8 passed, 1 failed'

# said LINE: rt ci passes, and this is its line on the edits
said() {
    echo "$built; echo '$1'; echo '8 passed, 0 failed'" >"$dir/ci"
}
said "$ok, 1 bad; $rest"
gate 'an edit is bad' 1 '8 passed, 1 failed'
shows 'how many are bad' '^gate: bad must-fail edits: 1$'
said "$ok, 2 of them only by a limit, 12 bad; $rest"
gate 'edits are bad' 1 '8 passed, 12 failed'
said "$ok, 3 bad"
gate 'edits are bad, and nothing else is said' 1 '8 passed, 3 failed'
said "$ok, 2 of them only by a limit; $rest"
gate 'an edit is refused by a limit' 0 '8 passed, 0 failed'
said "$ok, 0 bad; $rest"
gate 'no edit is bad, and it is said' 0 '8 passed, 0 failed'
said "rt: ok; handles allowed: none; $rest"
gate 'there is no edit' 0 '8 passed, 0 failed'
said 'rt: passed'
gate 'rt ci does not say that it is ok' 1 '8 passed, 1 failed'

# Lines come while rt ci runs: it goes on, for ten seconds at most, once its first line has come through the gate and a pipe.
cat >"$dir/ci" <<'END'
echo "rt: a proved"
n=0
while [ ! -e seen ] && [ $n -lt 10 ]; do sleep 1; n=$((n + 1)); done
mkdir -p crates/symbols/out
: >crates/symbols/out/symbols
echo "rt: ok; handles allowed: none; must-fail edits: 5 refused"
if [ -e seen ]; then echo "8 passed, 0 failed"; else echo "7 passed, 1 failed"; exit 1; fi
END
cases=$((cases + 1))
RT=$dir/rt sh "$dir/tests/gate.sh" | while IFS= read -r line; do
    : >"$dir/seen"
    echo "$line"
done >"$dir/out"
if [ "$(tail -n 1 "$dir/out")" != '8 passed, 0 failed' ]; then
    wrong=$((wrong + 1))
    echo "wrong: lines do not come while rt ci runs"
fi

# The gate is stopped: so is rt ci.
rm "$dir/out"
echo 'echo $$ >pid; echo "rt: a proved"; while :; do sleep 1; done' >"$dir/ci"
cases=$((cases + 1))
RT=$dir/rt sh "$dir/tests/gate.sh" >"$dir/out" &
gate=$!
n=0
while [ ! -s "$dir/out" ] && [ $n -lt 10 ]; do sleep 1; n=$((n + 1)); done
kill $gate
wait $gate
ended=$?
if [ $ended -eq 0 ] || kill "$(cat "$dir/pid")" 2>/dev/null; then
    wrong=$((wrong + 1))
    echo "wrong: the gate was stopped with status $ended, or rt ci went on"
fi

echo "$cases cases of the gate, $wrong wrong"
[ $wrong -eq 0 ]
