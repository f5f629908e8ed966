#!/bin/sh
# prove.sh FILE NAME..: proves programs and static libraries with what they stand on, and puts what is made of them into target/bin and target/staticlib. One
# that is there, made from the same files, is not proved again. Of what rt prints, a line for each crate is passed on as it is proved; all of it goes to FILE,
# and where rt fails the last 20 lines of that are shown, but for those that count modules.
set -u
file=$1
shift
cd "$(dirname "$0")/.." || exit 2
: "${RT:=rt}"
. tools/made.sh
mkdir -p "$(dirname "$file")" || exit 2
: >"$file"
sources=$(sum_of_sources)

# rt works on the crate in whose folder it runs, and first on the libraries below it. `rt run` also runs a program once it is proved: on its stored input.
prove() { # NAME
    if [ -f "crates/$1/src/main.rt" ]; then (cd "crates/$1" && $RT run <stdin); else (cd "crates/$1" && $RT lib); fi
}

# Passes on which crate is proved, and after how long: rt says the one before it checks, and the other behind it. The shell reads line by line; sed or awk could
# wait until a buffer is full. It learns rt's status from a line of its own behind rt's.
told() { # NAME
    status=1 crate=$1 began=$(date +%s)
    while IFS= read -r line; do
        case $line in
        'prove.sh: status '*) status=${line##* } && continue ;;
        'rt: chose --jobs '*' for '*) crate=${line##* } began=$(date +%s) ;;
        'logic=proved '*) echo "rt: $crate proved ($(($(date +%s) - began)) s)" ;;
        esac
        printf '%s\n' "$line" >&3
    done 3>>"$file"
    return "$status"
}

for name; do
    if is_made "$sources" "$name"; then continue; fi
    rm -f "$(product "$name")" "target/made_of/$name"
    if ! { prove "$name" 2>&1; echo "prove.sh: status $?"; } | told "$name"; then
        grep -v '^\(logic\|statements\|library\|crate\|axioms\) \|^only=' "$file" | tail -n 20
        exit 1
    fi
    take "$sources" "$name" || exit 1
done
