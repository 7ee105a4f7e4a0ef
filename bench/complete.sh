#!/bin/sh
# Asks `kconfig-conf --olddefconfig` (Debian's kconfig-frontends) whether it agrees on small trees of bool symbols without choices; where
# it isn't installed, nothing is asked. For each tree, each configuration of its symbols is written out as `complete_conf::config_text`
# does, and the tool is to give it back with the same symbols y exactly where `is_valid` says yes; and for no configuration at all it is
# to give what `complete` gives where nothing is known.
set -e
here=$(cd "$(dirname "$0")/.." && pwd)
if ! command -v kconfig-conf >/dev/null; then
    echo "kconfig-conf isn't installed: nothing is asked"
    exit 0
fi
. "$here/bench/driver.sh"
new_driver all_configurations 'indexmap sqlite_items thiserror' ut_base ut_logic kconf_parse kconf_tree complete_conf

cat >crates/all_configurations/src/main.rt <<'RT'
//! Prints what is completed where nothing is known, and each configuration of a tree of bools, with its validity.
#![tactic(auto)]

ghost use Rattle.std.specs.Prelude.{IfOk, IfSome};
ghost use Rattle.complete_conf.specs.Config.{FitsTree};

use complete_conf::{Config, Known, complete, config_text, is_valid};
use kconf_parse::read_tree;
use kconf_tree::{Tree, have_choices};
use sqlite_items::Items;
use std::alloc::{AllocError, Global};
use std::{env, io, str};
use ut_base::{DiskFiles, Meter, Name};
use ut_logic::Trit;

/// A value for each of so many symbols: y where the bit of its number is set.
fn values(alloc: Global, count: u32, bits: u32) -> Result<Items<Trit>, AllocError> {
    let mut values = Items::new(alloc);
    for sym in 0..count {
        let is_y = (bits >> (sym % 32)) & 1 == 1;
        values.push(if is_y { Trit::Y } else { Trit::N })?;
    }
    Ok(values)
}

/// The configuration of these bits, where the tree has neither choices nor outer conditions.
fn configuration(alloc: Global, tree: &Tree, bits: u32) -> Result<Option<Config>, AllocError>
    ensures { IfOk result (λ found. IfSome found (FitsTree tree.now.shape)) }
{
    let values = values(alloc, tree.symbols(), bits)?;
    if values.len() != tree.symbols() as usize || tree.choices() != 0 || tree.outers() != 0 {
        return Ok(None);
    }
    let modes = Items::new(alloc);
    let outers = Items::new(alloc);
    Ok(Some(Config {
        values,
        modes,
        outers,
    }))
}

/// Prints a word and a configuration's text.
fn print(
    rt: HostRuntime,
    alloc: Global,
    word: &str,
    tree: &Tree,
    config: &Config,
) -> io::Result<()>
    requires { FitsTree tree.now.shape config.now }
{
    let text = config_text(alloc, tree, config)?;
    match str::from_utf8(&text) {
        Ok(text) => println!(rt; "{word}\n{text}"),
        Err(_) => Ok(()),
    }
}

/// Prints the completion of nothing.
fn print_completed(rt: HostRuntime, alloc: Global, tree: &Tree) -> io::Result<()> {
    let Some(mut config) = configuration(alloc, tree, 0)? else {
        return println!(rt; "no tree of bools without choices");
    };
    let known = Known {
        syms: Items::new(alloc),
        choices: Items::new(alloc),
    };
    complete(tree, &mut config, &known);
    print(rt, alloc, "completed", tree, &config)
}

/// Prints the configuration of these bits behind its validity.
fn print_judged(rt: HostRuntime, alloc: Global, tree: &Tree, bits: u32) -> io::Result<()> {
    match configuration(alloc, tree, bits)? {
        Some(config) if is_valid(tree, &config) => print(rt, alloc, "valid", tree, &config),
        Some(config) => print(rt, alloc, "invalid", tree, &config),
        None => Ok(()),
    }
}

/// Prints the completion of nothing, and each configuration.
fn print_all(rt: HostRuntime, alloc: Global, tree: &Tree) -> io::Result<()> {
    print_completed(rt, alloc, tree)?;
    for bits in 0..(1u32 << (tree.symbols() % 32)) {
        print_judged(rt, alloc, tree, bits)?;
    }
    Ok(())
}

fn main(rt: HostRuntime) -> io::Result<()> {
    let alloc = rt.alloc();
    let Some(root) = Name::new(alloc, "Kconfig")? else {
        return Ok(());
    };
    let mut files = DiskFiles::new(&rt);
    let mut meter = Meter::new();
    match read_tree(alloc, &mut files, &root, &[], &mut meter) {
        Ok(entries) if have_choices(&entries) => match Tree::build(alloc, entries) {
            Ok(tree) => print_all(rt, alloc, &tree),
            Err(bad) => println!(rt; "{bad}"),
        },
        Ok(_) => Ok(()),
        Err(bad) => println!(rt; "{bad}"),
    }
}
RT
build_driver
program=$data/crates/all_configurations/out/all_configurations

# A tree a paragraph; `;` ends a line of it.
cat >trees <<'TREES'
config A;	bool "a";config B;	bool "b";	depends on A
config A;	bool "a";	select B;config B;	bool
config C;	bool "c";config B;	bool "b";	depends on C;config A;	bool "a";	select B
config A;	bool "a";	default y;config B;	def_bool A;config D;	bool "d" if B;	default A
config A;	bool "a";config B;	bool;	default y if !A;config C;	bool "c";	depends on A || B;config D;	bool "d";	depends on A && !B
config A;	bool "a";	select B if C;config B;	bool "b" if C;config C;	bool "c";	default y
config A;	bool "a";config B;	bool "b";	depends on A;config C;	bool "c";config B;	depends on C;	bool "again"
config A;	bool "a";config B;	bool "b";	depends on A = n;config C;	bool "c";	depends on A != B
config D;	bool "d";config C;	bool "c";	depends on D;config B;	bool;	select C;config A;	bool "a";	select B
config A;	bool "a";	depends on !NONE;config B;	bool "b";	depends on NONE || A;	default y
config A;	bool "a";menu "m";	depends on A;config B;	bool "b";	default y;if B;config C;	bool "c";endif;config D;	def_bool !C;endmenu
config A;	bool;	default y;	default n;config B;	bool "b";	default n;	default y;config C;	bool;	default B;	default y
config E;	bool "e";	default y if A && B;config A;	bool "a";config B;	bool "b" if A;	default y;config F;	bool;	default y;	depends on E
TREES

# ys FILE: the symbols that are y.
ys() { sed -n 's/^CONFIG_\(.*\)=y$/\1/p' "$1" | sort; }

# given_back: the symbols that are y when the tool has read `.config`.
given_back() {
    kconfig-conf --olddefconfig Kconfig >tool 2>&1 || cat tool
    ys .config
}

asked=0
wrong=0
while IFS= read -r tree; do
    mkdir tree
    cd tree
    echo "$tree" | tr ';' '\n' >Kconfig
    "$program" | awk '/^(completed|valid|invalid|no tree)/ { n++; print >("word" n); next } { print >("text" n) }'
    for word in word*; do
        text=text${word#word}
        rm -f .config
        [ "$(cat "$word")" = completed ] || cp "$text" .config
        ys "$text" >want
        given_back >found
        if cmp -s want found; then agree=yes; else agree=no; fi
        case $(cat "$word") in
        completed | valid) want=yes ;;
        *) want=no ;;
        esac
        asked=$((asked + 1))
        [ $agree = $want ] || {
            wrong=$((wrong + 1))
            echo "$tree: $(cat "$word"): $(tr '\n' ' ' <want)and $(tr '\n' ' ' <found)"
        }
    done
    cd ..
    rm -rf tree
done <trees
echo "$asked configurations asked, $wrong told otherwise"
[ $wrong = 0 ]
