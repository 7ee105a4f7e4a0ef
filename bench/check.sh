#!/bin/sh
# Times `check` on 100,000 chains of ten clauses of ten literals beside a plain C loop of the same merges.
# Usage: bench/check.sh. It builds a driver over copies of the crates in a folder of its own.
set -e
here=$(cd "$(dirname "$0")/.." && pwd)
. "$here/bench/driver.sh"
new_driver check_times '' ut_text ut_logic line_texts log_check

# Clause i has -i, i + 1 and the literals 20 to 27, so that each chain gives -1 and 11 and those.
cat >crates/check_times/src/main.rt <<'END'
//! Times the checker on many equal chains.
#![tactic(auto)]

use log_check::{Chain, Checked, Derivation, DerivationLine, PivotOf, check};
use std::alloc::{AllocError, Global};
use std::io;
use std::time::Instant;
use ut_logic::{Clause, Cnf, Lit, Sequence};

fn clause(alloc: Global, low: u64, high: u64) -> Result<Option<Clause>, AllocError> {
    let mut lits = Vec::new(alloc);
    lits.push(Lit { var: low, positive: false })?;
    lits.push(Lit { var: high, positive: true })?;
    for var in 20..28u64 {
        lits.push(Lit { var, positive: true })?;
    }
    Clause::try_new(alloc, lits.as_slice())
}

fn form(alloc: Global) -> Result<Option<Cnf>, AllocError> {
    let mut clauses = Vec::new(alloc);
    for i in 1..11u64 {
        let Some(clause) = clause(alloc, i, i + 1)? else {
            return Ok(None);
        };
        clauses.push(clause)?;
    }
    Ok(Cnf::try_new(27, Vec::new(alloc), clauses))
}

fn line(alloc: Global) -> Result<Option<DerivationLine>, AllocError> {
    let Some(result) = clause(alloc, 1, 11)? else {
        return Ok(None);
    };
    let mut pairs = Vec::new(alloc);
    for i in 2..11u64 {
        pairs.push(PivotOf { pivot: i, clause: i })?;
    }
    Ok(Some(DerivationLine { result, chain: Chain { first: 1, pairs: Sequence::from_vec(pairs) } }))
}

fn lines(alloc: Global) -> Result<Option<Derivation>, AllocError> {
    let mut lines = Vec::new(alloc);
    for _ in 0..100_000u32 {
        let Some(line) = line(alloc)? else {
            return Ok(None);
        };
        lines.push(line)?;
    }
    Ok(Some(Derivation { lines: Sequence::from_vec(lines) }))
}

fn main(rt: HostRuntime) -> io::Result<()> {
    let alloc = rt.alloc();
    let (Ok(Some(cnf)), Ok(Some(d))) = (form(alloc), lines(alloc)) else {
        return Ok(());
    };
    let start = Instant::now(&rt)?;
    let found = check(alloc, &cnf, &d);
    let micros = start.elapsed(&rt)?.as_micros();
    // The last line isn't empty, and all lines before it are right.
    let all = matches!(found, Ok(Checked::Bad { line: 100_000 }));
    println!(rt; "{micros} {all}")?;
    Ok(())
}
END

cat >plain.c <<'END'
#include <stdbool.h>
#include <stdint.h>
#include <stdio.h>
#include <stdlib.h>
#include <string.h>
#include <time.h>
struct lit { uint64_t var; bool positive; };
struct clause { struct lit *lits; int len; };
static struct clause clause_of(uint64_t low, uint64_t high) {
    struct clause c = { malloc(10 * sizeof(struct lit)), 10 };
    memset(c.lits, 0, 10 * sizeof(struct lit));
    c.lits[0].var = low;
    c.lits[1].var = high;
    c.lits[1].positive = true;
    for (int i = 0; i < 8; i++) { c.lits[i + 2].var = 20 + i; c.lits[i + 2].positive = true; }
    return c;
}
static int resolve(const struct lit *a, int n, const struct lit *b, int m, uint64_t pivot, struct lit *out) {
    int i = 0, j = 0, k = 0;
    bool met = false;
    while (i < n || j < m) {
        if (j == m || (i < n && a[i].var < b[j].var)) {
            if (a[i].var == pivot) return -1;
            out[k++] = a[i++];
        } else if (i == n || b[j].var < a[i].var) {
            if (b[j].var == pivot) return -1;
            out[k++] = b[j++];
        } else if (a[i].positive == b[j].positive) {
            if (a[i].var == pivot) return -1;
            out[k++] = a[i++];
            j++;
        } else {
            if (a[i].var != pivot) return -1;
            met = true;
            i++;
            j++;
        }
    }
    return met ? k : -1;
}
int main(void) {
    enum { LINES = 100000 };
    struct clause form[10], *results = malloc(LINES * sizeof *results);
    for (int i = 0; i < 10; i++) form[i] = clause_of(i + 1, i + 2);
    for (int i = 0; i < LINES; i++) results[i] = clause_of(1, 11);
    struct lit one[32], two[32], *acc = one, *next = two;
    struct timespec start, end;
    int right = 0;
    clock_gettime(CLOCK_MONOTONIC, &start);
    for (int l = 0; l < LINES; l++) {
        int len = form[0].len;
        memcpy(acc, form[0].lits, len * sizeof *acc);
        for (int i = 1; i < 10 && len >= 0; i++) {
            len = resolve(acc, len, form[i].lits, form[i].len, i + 1, next);
            struct lit *t = acc; acc = next; next = t;
        }
        bool same = len == results[l].len;
        for (int i = 0; same && i < len; i++)
            same = acc[i].var == results[l].lits[i].var && acc[i].positive == results[l].lits[i].positive;
        right += same;
    }
    clock_gettime(CLOCK_MONOTONIC, &end);
    printf("%ld %d\n", (end.tv_sec - start.tv_sec) * 1000000 + (end.tv_nsec - start.tv_nsec) / 1000, right);
    return 0;
}
END
cc -O2 plain.c -o plain
build_driver

best() {
    for _ in 1 2 3 4 5 6 7 8 9; do "$1"; done | sort -n | head -n 1
}
ours=$(best crates/check_times/out/check_times)
theirs=$(best ./plain)
echo "check $ours us, C $theirs us, ratio $(awk -v a="${ours%% *}" -v b="${theirs%% *}" 'BEGIN { printf "%.2f", a / b }')"
