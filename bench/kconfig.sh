#!/bin/sh
# Times the reading of Kconfig trees (`kconf_parse::read_tree`) beside python3-kconfiglib's and beside a run of the kernel's `conf`
# (kconfig-frontends' kconfig-conf, which also sets each symbol and writes a configuration), each best of several in the same run, and
# prints the times and their ratios: on a generated tree of 20,000 symbols in 1,500 texts, and on the Kconfig texts of a kernel where
# their folder is named, with macros replaced by constants. The first tree is also timed beside a tenth of it. A tool that isn't
# installed is left out.
# Usage: bench/kconfig.sh [FOLDER]; PYTHON names the Python that has kconfiglib, else it is python3.
set -e
here=$(cd "$(dirname "$0")/.." && pwd)
[ -z "$1" ] || kernel=$(cd "$1" && pwd)
python=${PYTHON:-python3}
. "$here/bench/driver.sh"
. "$here/bench/kconfig_tree.sh"
. "$here/bench/kernel_texts.sh"
new_driver kconfig_times 'indexmap sqlite_items thiserror' ut_base ut_logic kconf_parse

cat >crates/kconfig_times/src/main.rt <<'RT'
//! Times the reading of the Kconfig tree of each root text that is named, where `SRCARCH` is `x86`.
#![tactic(auto)]

use kconf_parse::{Var, read_tree};
use std::alloc::Global;
use std::time::Instant;
use std::{env, io};
use ut_base::{DiskFiles, Meter, Name};
use ut_logic::Text;

/// Reads the tree once and prints the time.
fn read(rt: HostRuntime, alloc: Global, root: &Name, vars: &[Var]) -> io::Result<()> {
    let mut files = DiskFiles::new(&rt);
    let mut meter = Meter::new();
    let start = Instant::now(&rt)?;
    let read = read_tree(alloc, &mut files, root, vars, &mut meter);
    let micros = start.elapsed(&rt)?.as_micros();
    match read {
        Ok(entries) => println!(rt; "{} {}", micros, entries.configs.len()),
        Err(bad) => println!(rt; "{bad}"),
    }
}

fn main(rt: HostRuntime) -> io::Result<()> {
    let alloc = rt.alloc();
    let name = Text::new(alloc, "SRCARCH")?;
    let value = Text::new(alloc, "x86")?;
    let vars = vec![in alloc; Var { name, value }]?;
    for word in env::args(&rt)?.skip(1) {
        if let Some(root) = Name::new(alloc, word.as_str())? {
            for _ in 0..9u32 {
                read(rt, alloc, &root, &vars)?;
            }
        }
    }
    Ok(())
}
RT

new_tree large 1500 20000
new_tree small 150 2000
build_driver
program=$data/crates/kconfig_times/out/kconfig_times

cat >times.py <<'PY'
import kconfiglib, time
best = None
for _ in range(3):
    start = time.time()
    symbols = len(kconfiglib.Kconfig("Kconfig", warn=False).unique_defined_syms)
    took = int((time.time() - start) * 1e6)
    best = took if best is None else min(best, took)
print(best, symbols)
PY

best() { sort -n "$1" | head -n 1; }

# conf_times: what runs of the kernel's configurator take over the tree in the current folder.
conf_times() {
    for _ in 1 2 3 4 5 6 7 8 9; do
        start=$(date +%s%N)
        kconfig-conf --allnoconfig Kconfig >/dev/null 2>&1 || return 0
        echo $((($(date +%s%N) - start) / 1000))
    done
}

# beside NAME: the times for the tree in the current folder.
beside() {
    "$program" Kconfig >"$data/$1.times"
    ours=$(best "$data/$1.times")
    echo "$1: read_tree ${ours% *} us, ${ours#* } configs"
    if "$python" -c 'import kconfiglib' 2>/dev/null; then
        theirs=$("$python" "$data/times.py")
        echo "$1: kconfiglib ${theirs% *} us, ${theirs#* } symbols; $(echo "${theirs% *} ${ours% *}" | awk '{ printf "%.1f", $1 / $2 }') times as long"
    fi
    if command -v kconfig-conf >/dev/null; then
        conf_times >"$data/$1.conf"
        [ ! -s "$data/$1.conf" ] || echo "$1: conf $(best "$data/$1.conf") us; $(echo "$(best "$data/$1.conf") ${ours% *}" | awk '{ printf "%.1f", $1 / $2 }') times as long"
    fi
}

(cd large && beside large)
(cd small && beside small)
echo "ten times the symbols: $(echo "$(best large.times) $(best small.times)" | awk '{ printf "%.1f", $1 / $3 }') times as long"

if [ -n "$kernel" ]; then
    kernel_texts "$kernel"
    cd "$data/kernel"
    export srctree=. SRCARCH=x86
    beside kernel
fi
