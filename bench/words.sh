#!/usr/bin/env bash
# Times a million joins, ANDs of two inputs, and sums of words of 64 bits: the best of three runs each, less that of a run on
# no word. An earlier form of the words is timed by a copy of this file and of program.sh in a clone that stands there.
set -eu
cd "$(dirname "$0")/.."
name=bench_words
. bench/program.sh

build_program "lg_arith lg_gates lg_value" joins 1 <<'PROGRAM'
//! Joins, gates or sums so many thousand pairs of words, and says by its status whether it was asked for one of these.
#![tactic(auto)]

use lg_arith::add;
use lg_gates::{GateKind, gate};
use lg_value::{Bit, Word};
use std::alloc::Global;
use std::env;
use std::process::ExitCode;

#[derive(Clone, Copy)]
enum Asked {
    Joins,
    Gates,
    Sums,
}

fn main(rt: HostRuntime) -> ExitCode {
    // No run comes to so many; what it comes to has to be known all the same.
    match unchanged(rt) {
        Some(u32::MAX) | None => ExitCode::FAILURE,
        Some(_) => ExitCode::SUCCESS,
    }
}

fn unchanged(rt: HostRuntime) -> Option<u32> {
    let alloc = rt.alloc();
    let mut words = env::args(&rt).ok()?.skip(1);
    let asked = named(words.next()?.as_str())?;
    let rounds = words.next()?.as_str().parse::<u32>().ok()?;
    let buses = buses(alloc)?;
    let mut count: u32 = 0;
    for distance in 0..rounds {
        count = count.wrapping_add(unchanged_at(asked, buses.as_slice(), distance as usize));
    }
    Some(count)
}

fn named(word: &str) -> Option<Asked> {
    match word {
        "joins" => Some(Asked::Joins),
        "gates" => Some(Asked::Gates),
        "sums" => Some(Asked::Sums),
        _ => None,
    }
}

// A thousand words of 64 bits.
fn buses(alloc: Global) -> Option<Vec<Word>> {
    let mut buses = Vec::new(alloc);
    let mut number: u64 = 1;
    for _ in 0..1000 {
        buses.push(Word::from_number(64, number)).ok()?;
        number = number.wrapping_mul(6_364_136_223_846_793_005).wrapping_add(1_442_695_040_888_963_407);
    }
    Some(buses)
}

// How many words stay as they are beside the one at this distance.
fn unchanged_at(asked: Asked, buses: &[Word], distance: usize) -> u32 {
    let mut count: u32 = 0;
    for (place, a) in buses.iter().enumerate() {
        if let Some(b) = buses.get(place.wrapping_add(distance) % 1000) {
            if answer(asked, a, b) == *a {
                count = count.wrapping_add(1);
            }
        }
    }
    count
}

fn answer(asked: Asked, a: &Word, b: &Word) -> Word {
    let width = a.width();
    if width != b.width() {
        return *a;
    }
    match asked {
        Asked::Joins => a.join(b),
        Asked::Gates => gate(GateKind::And, width, &[Some(*a), Some(*b)], false),
        Asked::Sums => add(a, b, Bit::Zero).0,
    }
}
PROGRAM

for what in joins gates sums; do
  none=$(best "$what" 0)
  took=$(best "$what" 1000)
  awk -v what="$what" -v took="$took" -v none="$none" 'BEGIN { printf "1,000,000 %-6s %8.1f ms\n", what, (took - none) / 1000 }'
done
