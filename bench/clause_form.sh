#!/bin/sh
# Times slices and clause forms on the facts of a kernel's Kconfig tree, whose symbols are numbered over the whole tree: for the slices
# whose sizes are nearest to 75 and to 4,132 nodes, the best of nine runs of `slice_in`, of the part of the clause form before the wish, of
# a wish that is added to it, and of `clauses_in`; and beside it what a C program takes to write the same clauses as DIMACS into memory.
# Usage: bench/clause_form.sh FOLDER [CC], with the folder of a kernel's sources; PYTHON names the Python, else it is python3.
set -e
here=$(cd "$(dirname "$0")/.." && pwd)
kernel=$(cd "$1" && pwd)
compiler=${2:-cc}
python=${PYTHON:-python3}
. "$here/bench/driver.sh"
. "$here/bench/kernel_texts.sh"
new_driver form_times 'indexmap sqlite_items thiserror' ut_base ut_logic kconf_parse kconf_tree kconf_constr model_slice clausify

cat >crates/form_times/src/main.rt <<'END_RT'
//! Times slices and clause forms of the facts of the tree `Kconfig`, and prints the clauses of the last as DIMACS.
#![tactic(auto)]

use clausify::{FactForm, are_listed_in, clauses_in};
use kconf_constr::constraints;
use kconf_parse::{Var, read_tree};
use kconf_tree::{Tree, have_choices};
use model_slice::{IndexedFacts, Slice, SymbolRoom, are_known, slice_in};
use std::alloc::{AllocError, Global};
use std::time::Instant;
use std::{env, io};
use ut_base::{DiskFiles, Meter, Name};
use ut_logic::{Cnf, Facts, Formula, Item, Node, Text};

/// What a question over one symbol takes, in nanoseconds.
#[derive(Clone, Copy)]
struct Timed {
    nodes: usize,
    clauses: usize,
    slice: u128,
    before: u128,
    wish: u128,
    whole: u128,
}

impl Timed {
    /// Nothing is timed.
    fn none() -> Timed {
        Timed {
            nodes: 0,
            clauses: 0,
            slice: 0,
            before: 0,
            wish: 0,
            whole: 0,
        }
    }
}

/// How many nodes the slice of a symbol has.
fn size(alloc: Global, facts: &Facts, symbols: usize, sym: u32) -> Result<usize, AllocError> {
    let roots = [Node::Sym(sym)];
    if !are_known(alloc, facts, &roots)? {
        return Ok(0);
    }
    let store = IndexedFacts::of(alloc, facts)?;
    let mut room = SymbolRoom::new(alloc, symbols)?;
    let slice = slice_in(alloc, &store, &mut room, &roots)?;
    Ok(slice.nodes.len())
}

/// Finds the slice of the roots, where all that is named is known.
fn time_slice(
    rt: &HostRuntime,
    facts: &Facts,
    symbols: usize,
    roots: &[Node],
    timed: &mut Timed,
) -> io::Result<Option<Slice>> {
    let alloc = rt.alloc();
    if !are_known(alloc, facts, roots)? {
        return Ok(None);
    }
    let store = IndexedFacts::of(alloc, facts)?;
    let mut room = SymbolRoom::new(alloc, symbols)?;
    let start = Instant::now(rt)?;
    let slice = slice_in(alloc, &store, &mut room, roots)?;
    timed.slice = start.elapsed(rt)?.as_nanos();
    timed.nodes = slice.nodes.len();
    Ok(Some(slice))
}

/// Makes the form before the wish, where each item is listed.
fn time_before(
    rt: &HostRuntime,
    store: &IndexedFacts<'_>,
    room: &mut SymbolRoom,
    slice: &Slice,
    timed: &mut Timed,
) -> io::Result<Option<FactForm>> {
    let alloc = rt.alloc();
    if !are_listed_in(alloc, store, &[], slice, &[])? {
        return Ok(None);
    }
    let start = Instant::now(rt)?;
    let form = FactForm::of(alloc, store, room, &[], slice)?;
    timed.before = start.elapsed(rt)?.as_nanos();
    Ok(Some(form))
}

/// The form with the wish, where the wish has no items of its own.
fn wished(alloc: Global, form: &FactForm, wish: &[Formula]) -> Result<Option<Cnf>, AllocError> {
    let known = form.has_items_of(alloc, wish)?;
    if known {
        let cnf = form.with_wish(alloc, wish)?;
        Ok(Some(cnf))
    } else {
        Ok(None)
    }
}

/// Adds a wish to the form, where it has no items of its own.
fn time_wish(
    rt: &HostRuntime,
    form: &FactForm,
    wish: &[Formula],
    timed: &mut Timed,
) -> io::Result<()> {
    let start = Instant::now(rt)?;
    let added = wished(rt.alloc(), form, wish)?;
    timed.wish = start.elapsed(rt)?.as_nanos();
    if let Some(cnf) = added {
        timed.clauses = cnf.clauses.len();
    }
    Ok(())
}

/// Makes the whole form at once, where each item is listed.
fn time_whole(
    rt: &HostRuntime,
    store: &IndexedFacts<'_>,
    room: &mut SymbolRoom,
    slice: &Slice,
    wish: &[Formula],
    timed: &mut Timed,
) -> io::Result<Option<Cnf>> {
    let alloc = rt.alloc();
    if !are_listed_in(alloc, store, &[], slice, wish)? {
        return Ok(None);
    }
    let start = Instant::now(rt)?;
    let cnf = clauses_in(alloc, store, room, &[], slice, wish)?;
    timed.whole = start.elapsed(rt)?.as_nanos();
    Ok(Some(cnf))
}

/// Times the slice of a symbol, and its form with the wish that the symbol is y; the clauses of that form.
fn measure(
    rt: &HostRuntime,
    facts: &Facts,
    symbols: usize,
    sym: u32,
    timed: &mut Timed,
) -> io::Result<Option<Cnf>> {
    let alloc = rt.alloc();
    let wish = [Formula::Is(Item::SymY(sym))];
    let Some(slice) = time_slice(rt, facts, symbols, &[Node::Sym(sym)], timed)? else {
        return Ok(None);
    };
    let store = IndexedFacts::of(alloc, facts)?;
    let mut room = SymbolRoom::new(alloc, symbols)?;
    if let Some(form) = time_before(rt, &store, &mut room, &slice, timed)? {
        time_wish(rt, &form, &wish, timed)?;
    }
    time_whole(rt, &store, &mut room, &slice, &wish, timed)
}

/// Prints the clauses.
fn print_clauses(rt: &HostRuntime, cnf: &Cnf) -> io::Result<()> {
    println!(rt; "p cnf {} {}", cnf.vars, cnf.clauses.len())?;
    for clause in cnf.clauses.as_slice() {
        let mut line = String::new(rt.alloc());
        for lit in clause.lits() {
            line.push_str(if lit.positive { "" } else { "-" })?;
            line.push_str(format!(in rt.alloc(); "{} ", lit.var)?.as_str())?;
        }
        println!(rt; "{}0", line)?;
    }
    Ok(())
}

/// Prints what the question over the symbol takes, nine times, and then its clauses.
fn run(rt: &HostRuntime, facts: &Facts, symbols: usize, sym: u32) -> io::Result<()> {
    for left in 0..9u32 {
        let mut t = Timed::none();
        if let Some(cnf) = measure(rt, facts, symbols, sym, &mut t)? {
            println!(rt; "t {} {} {} {} {} {}", t.nodes, t.clauses, t.slice, t.before, t.wish, t.whole)?;
            if left == 8 {
                print_clauses(rt, &cnf)?;
            }
        }
    }
    Ok(())
}

/// Prints the sizes of the slices of every so many symbols, or times that of one symbol.
fn answer(rt: &HostRuntime, tree: &Tree, words: &[u32]) -> io::Result<()> {
    let facts = constraints(rt.alloc(), tree)?;
    let symbols = tree.symbols();
    if words.len() == 1 {
        return run(rt, &facts, symbols as usize, words[0]);
    }
    for sym in 0..symbols {
        if sym % 16 == 0 {
            println!(rt; "{} {}", sym, size(rt.alloc(), &facts, symbols as usize, sym)?)?;
        }
    }
    Ok(())
}

fn main(rt: HostRuntime) -> io::Result<()> {
    let alloc = rt.alloc();
    let mut words = Vec::new(alloc);
    for word in env::args(&rt)?.skip(1) {
        words.push(word.as_str().parse::<u32>().unwrap_or(0))?;
    }
    let Some(root) = Name::new(alloc, "Kconfig")? else {
        return Ok(());
    };
    let name = Text::new(alloc, "SRCARCH")?;
    let value = Text::new(alloc, "x86")?;
    let vars = vec![in alloc; Var { name, value }]?;
    let mut files = DiskFiles::new(&rt);
    let mut meter = Meter::new();
    match read_tree(alloc, &mut files, &root, &vars, &mut meter) {
        Ok(entries) if have_choices(&entries) => match Tree::build(alloc, entries) {
            Ok(tree) => answer(&rt, &tree, &words),
            Err(bad) => println!(rt; "{bad}"),
        },
        Ok(_) => Ok(()),
        Err(bad) => println!(rt; "{bad}"),
    }
}
END_RT
mkdir -p crates/form_times/proofs/wished
cat >crates/form_times/proofs/wished/Answers.antt <<'END_ANTT'
use Rattle.form_times.proofs.wished.Goals as goal

pub with_wish-requires : goal.with_wish-requires
with_wish-requires c = c.in_ok-known.ensures.0 c.if-known.true
END_ANTT
build_driver
program=$data/crates/form_times/out/form_times

cat >dimacs.c <<'END_C'
#include <stdio.h>
#include <stdlib.h>
#include <string.h>
#include <time.h>

static long now(void) {
    struct timespec t;
    clock_gettime(CLOCK_MONOTONIC, &t);
    return t.tv_sec * 1000000000L + t.tv_nsec;
}

/* Reads clauses from the standard input, writes them into memory nine times, and prints the nanoseconds of the best. */
int main(void) {
    long vars, count, room = 1 << 20, used = 0, best = -1;
    long *lits = malloc(room * sizeof *lits);
    if (scanf("p cnf %ld %ld", &vars, &count) != 2) return 1;
    while (scanf("%ld", lits + used) == 1)
        if (++used == room) lits = realloc(lits, (room *= 2) * sizeof *lits);
    char *text = malloc(used * 12 + 64);
    for (int run = 0; run < 9; run++) {
        long start = now();
        char *end = text + sprintf(text, "p cnf %ld %ld\n", vars, count);
        for (long i = 0; i < used; i++) {
            char digits[24], *first = digits + sizeof digits;
            long lit = lits[i];
            unsigned long left = lit < 0 ? -lit : lit;
            do *--first = '0' + left % 10; while (left /= 10);
            if (lit < 0) *--first = '-';
            memcpy(end, first, digits + sizeof digits - first);
            end += digits + sizeof digits - first;
            *end++ = lit ? ' ' : '\n';
        }
        long took = now() - start;
        if (best < 0 || took < best) best = took;
    }
    printf("%ld\n", best);
    return text[0] != 'p';
}
END_C
"$compiler" -O2 -o dimacs dimacs.c

kernel_texts "$kernel"
cd "$data/kernel"
export srctree=. SRCARCH=x86
"$program" >"$data/sizes"

# nearest SIZE: the symbol whose slice is nearest to it.
nearest() { awk -v size="$1" '{ d = $2 > size ? $2 - size : size - $2; if (NR == 1 || d < best) { best = d; sym = $1 } } END { print sym }' "$data/sizes"; }
for size in 75 4132; do
    "$program" "$(nearest $size)" >"$data/run"
    grep -v '^t ' "$data/run" >"$data/clauses"
    written=$("$data/dimacs" <"$data/clauses")
    awk -v written="$written" '$1 == "t" { for (i = 4; i <= 7; i++) if (!($i >= best[i] && i in best)) best[i] = $i; nodes = $2; clauses = $3 }
        END {
            printf "slice of %d nodes: %.1f us\n", nodes, best[4] / 1000
            printf "  form before the wish: %.1f us, with a wish added: %.1f us; in one: %.1f us, %d clauses, %.3f us each\n", best[5] / 1000, best[6] / 1000, best[7] / 1000, clauses, best[7] / 1000 / clauses
            printf "  written as DIMACS in C: %.1f us; the form takes %.1f times as long\n", written / 1000, best[7] / written
        }' "$data/run"
done
