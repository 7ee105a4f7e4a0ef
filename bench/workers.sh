#!/bin/sh
# Times 128 equal jobs of 2 ms with one and with four workers, and a call with four workers and 64 jobs of nothing, beside a C program that
# shares the same jobs out among POSIX threads. On four processors with no other work a speed-up of at least 3.6 and a call under 100 us are the aims.
# Usage: bench/workers.sh. It builds a driver over a copy of the crate in a folder of its own.
set -e
here=$(cd "$(dirname "$0")/.." && pwd)
. "$here/bench/driver.sh"
new_driver workers_times '' ut_workers

cat >plain.c <<'END_OF_C'
#include <pthread.h>
#include <stdint.h>
#include <stdio.h>
#include <stdlib.h>
#include <time.h>

static uint32_t turns;
static const uint64_t *jobs;
static uint64_t *answers;
static int count, step;

static uint64_t judge(uint64_t x) {
    for (uint32_t i = 0; i < turns; i++) x = (x ^ (x >> 29)) * 0xBF58476D1CE4E5B9u;
    return x;
}
static void *stripe(void *first) {
    for (int i = (int)(intptr_t)first; i < count; i += step) answers[i] = judge(jobs[i]);
    return NULL;
}
static uint64_t fan(const uint64_t *list, int n, int workers) {
    pthread_t threads[64];
    jobs = list;
    count = n;
    step = workers;
    answers = malloc(n * sizeof *answers);
    for (int i = 1; i < workers; i++) pthread_create(&threads[i], NULL, stripe, (void *)(intptr_t)i);
    stripe((void *)0);
    for (int i = 1; i < workers; i++) pthread_join(threads[i], NULL);
    uint64_t all = 0;
    for (int i = 0; i < n; i++) all ^= answers[i];
    free(answers);
    return all;
}
static double micros(void) {
    struct timespec now;
    clock_gettime(CLOCK_MONOTONIC, &now);
    return now.tv_sec * 1e6 + now.tv_nsec / 1e3;
}
int main(int argc, char **argv) {
    uint64_t list[128], check = 0;
    for (int i = 0; i < 128; i++) list[i] = i;
    double start, least = 1e12;
    if (argc < 2) { /* how many turns take 2 ms: by the least of 20 rounds of a million */
        turns = 1000000;
        for (int i = 0; i < 20; i++) {
            start = micros();
            check ^= judge(i);
            double took = micros() - start;
            if (took < least) least = took;
        }
        printf("%.0f\n", 2000 * 1e6 / (least + (check == 0)));
        return 0;
    }
    turns = strtoul(argv[1], NULL, 10);
    start = micros();
    check ^= fan(list, 128, 1);
    double one = micros() - start;
    start = micros();
    check ^= fan(list, 128, 4);
    double four = micros() - start;
    turns = 0;
    start = micros();
    for (int i = 0; i < 100; i++) check ^= fan(list, 64, 4);
    double call = (micros() - start) / 100;
    printf("%.0f %.0f %.1f %llu\n", one, four, call, (unsigned long long)check);
    return 0;
}
END_OF_C
cc -O2 -pthread plain.c -o plain
turns=$(./plain)

cat >crates/workers_times/src/main.rt <<END_OF_MAIN
//! Times equal jobs that are shared out, and calls with jobs of nothing.
#![tactic(auto)]

ghost use Rattle.std.specs.Prelude.{◌<◌, ◌≤◌};

use std::alloc::{AllocError, Global};
use std::io;
use std::thread::Threads;
use std::time::Instant;
use ut_workers::{Judge, fan};

const TURNS: u32 = $turns;

END_OF_MAIN
cat >>crates/workers_times/src/main.rt <<'END_OF_MAIN'
/// Mixes a number so many times.
#[derive(Drop)]
struct Mixer {
    turns: u32,
}

impl Judge for Mixer {
    type Job = u64;

    type Out = u64;

    ghost accepts = { λ _ _. Unit {0} };

    ghost meets = { λ _ _ _. Unit {0} };

    fn judge(&self, _alloc: Global, job: &u64) -> Result<u64, AllocError> {
        let mut x = *job;
        for _ in 0..self.turns {
            x = (x ^ (x >> 29)).wrapping_mul(0xBF58_476D_1CE4_E5B9);
        }
        Ok(x)
    }
}

/// All answers in one number.
fn mixed<R: Threads + Sync>(rt: &R, alloc: Global, judge: &Mixer, jobs: &[u64], workers: u32) -> io::Result<u64>
    requires some { 0 < workers }
    requires few { workers ≤ 64 }
{
    let mut all = 0;
    for answer in fan(rt, alloc, judge, jobs, workers)? {
        all ^= answer;
    }
    Ok(all)
}

fn main(rt: HostRuntime) -> io::Result<()> {
    let mut jobs = Vec::new(rt.alloc());
    for job in 0..128u64 {
        jobs.push(job)?;
    }
    let judge = Mixer { turns: TURNS };
    let start = Instant::now(&rt)?;
    let mut check = mixed(&rt, rt.alloc(), &judge, &jobs, 1)?;
    let one = start.elapsed(&rt)?.as_micros();
    let start = Instant::now(&rt)?;
    check ^= mixed(&rt, rt.alloc(), &judge, &jobs, 4)?;
    let four = start.elapsed(&rt)?.as_micros();
    let nothing = Mixer { turns: 0 };
    let few = jobs.get(..64).unwrap_or(&[]);
    let start = Instant::now(&rt)?;
    for _ in 0..100u8 {
        check ^= mixed(&rt, rt.alloc(), &nothing, few, 4)?;
    }
    let calls = start.elapsed(&rt)?.as_micros();
    println!(rt; "{one} {four} {}.{} {check}", calls / 100, calls % 100 / 10)?;
    Ok(())
}
END_OF_MAIN
build_driver

# Nine rounds of both programs in turn: each round's two times, its time of a call, and the number that both come to.
for _ in 1 2 3 4 5 6 7 8 9; do
    crates/workers_times/out/workers_times >>ours
    ./plain "$turns" >>theirs
done
cut -d ' ' -f 4 ours >our_numbers
cut -d ' ' -f 4 theirs >their_numbers
cmp our_numbers their_numbers

# median FILE COLUMN
median() {
    cut -d ' ' -f "$2" "$1" | sort -n | sed -n 5p
}
for program in ours theirs; do
    one=$(median $program 1)
    four=$(median $program 2)
    awk -v program=$program -v one="$one" -v four="$four" -v call="$(median $program 3)" 'BEGIN {
        name = program == "ours" ? "fan" : "C"
        printf "%s: %.1f ms with 1 worker, %.1f ms with 4, speed-up %.2f; a call with 64 jobs of nothing %.1f us\n", name, one / 1e3, four / 1e3, one / four, call
    }'
done
