# Read by tools/prove.sh and tests/gate.sh, at the top of the repository: what was made from which files, so that nothing is proved twice.

# A checksum of the kit and of every file of the crates, by name and content, but for what rt keeps in crates/*/out/. These are more files than a proof reads,
# so that none is forgotten.
sum_of_sources() {
    {
        ${RT:-rt} version
        find crates crates.txt -type d -path 'crates/*/out' ! -path 'crates/*/*/*' -prune -o -type f -exec sha256sum {} + | LC_ALL=C sort
    } | sha256sum
}

# Where what is made of a crate stands: a program, and else a static library.
product() { # NAME
    if [ -f "crates/$1/src/main.rt" ]; then echo "target/bin/$1"; else echo "target/staticlib/lib$1.a"; fi
}

# What a file was made from, and what it is.
made_of() { # SOURCES FILE
    echo "sources $1"
    sha256sum "$2"
}

# Whether the crate's product is there, made from these sources and not changed since.
is_made() { # SOURCES NAME
    [ -f "$(product "$2")" ] && [ -f "target/made_of/$2" ] && [ "$(made_of "$1" "$(product "$2")")" = "$(cat "target/made_of/$2")" ]
}

# Takes the crate's product from crates/NAME/out/, where rt has made it from these sources.
take() { # SOURCES NAME
    mkdir -p target/made_of "$(dirname "$(product "$2")")" || return 1
    rm -f "target/made_of/$2"
    cp "crates/$2/out/$(basename "$(product "$2")")" "$(product "$2")" && made_of "$1" "$(product "$2")" >"target/made_of/$2"
}
