#!/bin/sh
# Times the blocks and the facts of a source of 60,000 `#define` lines and 60,000 blocks beside one of a tenth of them; at most 15 times as long is the aim.
# Usage: bench/blocks.sh. It builds a driver over copies of the crates in a folder of its own.
set -e
here=$(cd "$(dirname "$0")/.." && pwd)
. "$here/bench/driver.sh"
new_driver blocks_times 'sqlite_items' ut_logic cpp_read cpp_blocks

# Each of the lines defines one of 12,000 names, and behind it stands a block on two names and a piece.
cat >crates/blocks_times/src/main.rt <<'END'
//! Times the blocks and the facts of a long source, and of a tenth of it.
#![tactic(auto)]

ghost use Rattle.std.specs.Prelude.{◌≡◌, IfOk, length};
ghost use Rattle.cpp_blocks.specs.Facts.{AreStarts};

use cpp_blocks::{Blocks, BuiltOf, StartOf, block_facts, is_well_formed};
use cpp_read::{Cond, Directive, Gives, What};
use sqlite_items::Items;
use std::alloc::{AllocError, Global};
use std::io;
use std::time::Instant;
use ut_logic::{Facts, Formula, Item, Sequence, Text};

#[derive(Clone, Copy)]
struct Timed {
    micros: u128,
    facts: usize,
}

fn name(alloc: Global, number: u32) -> Result<Text, AllocError> {
    let text = format!(in alloc; "M{number}")?;
    Text::new(alloc, text.as_str())
}

fn cond(alloc: Global, number: u32) -> Result<Cond, AllocError> {
    let a = Cond::Defined(name(alloc, number)?);
    let b = Cond::Plain(name(alloc, number.wrapping_mul(7) % 12_000)?);
    let text = format!(in alloc; "M{number} > 3")?;
    let c = Cond::Piece(Text::new(alloc, text.as_str())?);
    let list = vec![in alloc; a, b, c]?;
    Ok(Cond::AnyOf(Items::from_vec(list)))
}

fn add(alloc: Global, list: &mut Vec<Directive>, i: u32) -> Result<(), AllocError> {
    let line = i.wrapping_mul(8);
    let name = name(alloc, i % 12_000)?;
    let gives = Gives::Free;
    list.push(Directive { line: line.wrapping_add(1), what: What::Define { name, gives } })?;
    let cond = cond(alloc, i % 12_000)?;
    list.push(Directive { line: line.wrapping_add(2), what: What::If(cond) })?;
    list.push(Directive { line: line.wrapping_add(3), what: What::Endif })?;
    Ok(())
}

fn source(alloc: Global, count: u32) -> Result<Vec<Directive>, AllocError> {
    let mut list = Vec::new(alloc);
    for i in 0..count {
        add(alloc, &mut list, i)?;
    }
    Ok(list)
}

fn free_start(alloc: Global, name: u32) -> StartOf
    ensures free { result.d ≡ Formula.Is (Item.StartD 0 name) }
    ensures truth { result.t ≡ Formula.Is (Item.StartT 0 name) }
{
    StartOf {
        d: Formula::Is(Item::StartD { file: 0, name }),
        t: Formula::Is(Item::StartT { file: 0, name }),
        names: Sequence::new(alloc),
        items: Sequence::new(alloc),
    }
}

fn number(place: usize) -> Result<u32, AllocError>
    ensures { IfOk result (λ n. n ≡ place) }
{
    u32::try_from(place).map_err(|_| AllocError)
}

fn free_starts(alloc: Global, count: usize) -> Result<Vec<StartOf>, AllocError>
    ensures count { IfOk result (λ v. length v.items ≡ count) }
    ensures given { IfOk result (λ v. AreStarts 0 0 v.items) }
{
    let mut starts = Vec::new(alloc);
    for place in 0..count {
        let name = number(place)?;
        starts.push(free_start(alloc, name))?;
    }
    Ok(starts)
}

fn facts(alloc: Global, blocks: &Blocks) -> Result<Facts, AllocError> {
    let starts = free_starts(alloc, blocks.macro_names().len())?;
    let built = BuiltOf {
        formula: Formula::Yes,
        names: Sequence::new(alloc),
        items: Sequence::new(alloc),
    };
    block_facts(alloc, blocks, 0, &starts, built)
}

/// The least of five rounds.
fn measured(rt: &HostRuntime, count: u32) -> io::Result<Option<Timed>> {
    let alloc = rt.alloc();
    let mut least: Option<Timed> = None;
    for _ in 0..5u8 {
        let Ok(list) = source(alloc, count) else {
            return Ok(None);
        };
        let Ok(true) = is_well_formed(alloc, &list) else {
            return Ok(None);
        };
        let start = Instant::now(rt)?;
        let Ok(blocks) = Blocks::build(alloc, list) else {
            return Ok(None);
        };
        let Ok(all) = facts(alloc, &blocks) else {
            return Ok(None);
        };
        let micros = start.elapsed(rt)?.as_micros();
        let facts = all.list.len();
        least = match least {
            Some(was) if was.micros <= micros => Some(was),
            _ => Some(Timed { micros, facts }),
        };
    }
    Ok(least)
}

fn main(rt: HostRuntime) -> io::Result<()> {
    let (Some(few), Some(many)) = (measured(&rt, 6_000)?, measured(&rt, 60_000)?) else {
        return Ok(());
    };
    println!(rt; "{} {} {} {}", few.micros, few.facts, many.micros, many.facts)?;
    Ok(())
}
END

# The starts are proved as those of the crate's tests are.
cp -R "$here/crates/cpp_blocks/proofs/tests" crates/blocks_times/proofs
for file in crates/blocks_times/proofs/free_starts/*.antt; do
    sed -i 's/cpp_blocks\.proofs\.tests/blocks_times.proofs/' "$file"
done
build_driver

# The best of five of each size, from one run.
crates/blocks_times/out/blocks_times >times
awk '{ printf "blocks and facts: %d facts in %d us, %d facts in %d us, ratio %.2f\n", $4, $3, $2, $1, $3 / $1 }
    END { if (NR != 1) { print "a source is not well formed"; exit 1 } }' times
