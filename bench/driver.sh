# Sourced by the timings of single crates: a driver crate over copies of the repository's crates, in a folder of its own.

# new_driver NAME LIBRARIES CRATE ..: makes the folder, which goes with the script, and the crate NAME in it, which uses the
# CRATEs and the kit's LIBRARIES; the folder is then the current one. The script writes the driver's main.rt. The crates that
# the CRATEs stand on are copied too.
new_driver() {
    driver=$1
    libraries=$2
    shift 2
    data=$(mktemp -d)
    trap 'rm -rf "$data"' EXIT
    mkdir "$data/crates"
    wanted=$*
    while [ -n "$wanted" ]; do
        below=
        for crate in $wanted; do
            [ -d "$here/crates/$crate" ] && [ ! -d "$data/crates/$crate" ] || continue
            cp -R "$here/crates/$crate" "$data/crates/$crate"
            rm -rf "$data/crates/$crate/must-fail"
            grep "^$crate:" "$here/crates.txt" >>"$data/crates.txt"
            below="$below $(sed -n "s/^$crate: *//p" "$here/crates.txt")"
        done
        wanted=$below
    done
    cp "$here/HANDLES" "$data/HANDLES"
    cd "$data"
    rt new "crates/$driver" start_io >/dev/null
    (cd "crates/$driver" && rm -rf src/*.rt proofs specs stdin stdout)
    echo "$driver: $* $libraries" >>crates.txt
}

# build_driver: proves and builds the driver, as crates/NAME/out/NAME.
build_driver() {
    (cd "crates/$driver" && rt run >"$data/log" 2>&1) || {
        tail "$data/log"
        exit 1
    }
}
