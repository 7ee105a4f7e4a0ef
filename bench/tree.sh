#!/bin/sh
# Times `kconf_tree::Tree::build` on a generated tree of 20,000 symbols with about 100,000 references, beside the reading of its texts
# (`kconf_parse::read_tree`) in the same run, and on a tenth of it. Prints the best of nine of each, and the ratios.
set -e
here=$(cd "$(dirname "$0")/.." && pwd)
. "$here/bench/driver.sh"
. "$here/bench/kconfig_tree.sh"
new_driver tree_times 'indexmap sqlite_items thiserror' ut_base ut_logic kconf_parse kconf_tree

cat >crates/tree_times/src/main.rt <<'RT'
//! Times the reading and the building of the Kconfig tree of the root text that is named.
#![tactic(auto)]

use kconf_parse::read_tree;
use kconf_tree::{Tree, have_choices};
use std::alloc::Global;
use std::time::Instant;
use std::{env, io};
use ut_base::{DiskFiles, Meter, Name};

/// Reads and builds the tree once, and prints both times.
fn build(rt: HostRuntime, alloc: Global, root: &Name) -> io::Result<()> {
    let mut files = DiskFiles::new(&rt);
    let mut meter = Meter::new();
    let start = Instant::now(&rt)?;
    let read = read_tree(alloc, &mut files, root, &[], &mut meter);
    let reading = start.elapsed(&rt)?.as_micros();
    match read {
        Ok(entries) if have_choices(&entries) => {
            let start = Instant::now(&rt)?;
            let built = Tree::build(alloc, entries);
            let building = start.elapsed(&rt)?.as_micros();
            match built {
                Ok(tree) => println!(rt; "{} {} {}", reading, building, tree.symbols()),
                Err(bad) => println!(rt; "{bad}"),
            }
        }
        Ok(_) => Ok(()),
        Err(bad) => println!(rt; "{bad}"),
    }
}

fn main(rt: HostRuntime) -> io::Result<()> {
    let alloc = rt.alloc();
    for word in env::args(&rt)?.skip(1) {
        if let Some(root) = Name::new(alloc, word.as_str())? {
            for _ in 0..9u32 {
                build(rt, alloc, &root)?;
            }
        }
    }
    Ok(())
}
RT

new_tree large 1500 20000
new_tree small 150 2000
build_driver
program=$data/crates/tree_times/out/tree_times
"$program" large/Kconfig >large.times
"$program" small/Kconfig >small.times
best() { sort -n -k "$2,$2" "$1" | awk -v column="$2" 'NR == 1 { print $column }'; }
for tree in large small; do
    echo "$tree: reading $(best $tree.times 1) us, building $(best $tree.times 2) us"
done
echo "building takes $(echo "$(best large.times 2) $(best large.times 1)" | awk '{ printf "%.2f", $1 / $2 }') of the time of reading"
echo "ten times the symbols: $(echo "$(best large.times 2) $(best small.times 2)" | awk '{ printf "%.1f", $1 / $2 }') times as long"
