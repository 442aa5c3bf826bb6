#!/usr/bin/env bash
# Times `read_port_table` on 400, 4,000 and 40,000 records that give one attribute a default, and then `ports` on 655, 6,554
# and 65,536 components that leave it out: the best of three runs each, as ratios to the first.
set -eu
cd "$(dirname "$0")/.."
name=bench_parts
. bench/program.sh

# Builds a program that reads a port table and asks for the ports of so many components, over a copy of the repository and
# outside it, and runs it.
build() {
  build_program "lg_io lg_ports lg_kinds lg_attrs lg_text sqlite_items" "$1" 1 <<'PROGRAM'
//! Reads a port table, asks for the ports of so many components, and says by its status whether all have some.
#![tactic(auto)]

use lg_io::{Files, HostFiles};
use lg_ports::{Attrs, Kind, PortTable, ports, read_port_table};
use sqlite_items::Items;
use std::alloc::Global;
use std::env;
use std::process::ExitCode;

const MOST_BYTES: usize = 16_777_216;

fn main(rt: HostRuntime) -> ExitCode {
    match all_have_ports(rt) {
        Some(true) => ExitCode::SUCCESS,
        _ => ExitCode::FAILURE,
    }
}

fn all_have_ports(rt: HostRuntime) -> Option<bool> {
    let alloc = rt.alloc();
    let mut words = env::args(&rt).ok()?.skip(1);
    let name = words.next()?;
    let count = words.next()?;
    let count: u32 = count.parse().ok()?;
    let mut files = HostFiles::new(rt);
    let bytes = files.read(alloc, name.as_str(), MOST_BYTES).ok()?;
    let table = read_port_table(alloc, bytes.as_slice()).ok()?;
    have_ports(alloc, &table, count)
}

fn have_ports(alloc: Global, table: &PortTable, count: u32) -> Option<bool> {
    let attrs = Attrs {
        list: Items::new(alloc),
    };
    for _ in 0..count {
        let list = ports(alloc, Kind::AndGate, &attrs, table).ok()?;
        if list.is_empty() {
            return Some(false);
        }
    }
    Some(true)
}
PROGRAM
}

# A port table of so many records, the last of which gives a gate three inputs.
records() {
  awk -v records="$1" 'BEGIN {
    print "row,name,item,a,b"
    for (k = records; k > 0; k--) print "default,AND Gate,inputs," 2 + k % 63 ","
  }'
}

records 400 >"$folder/400.csv"
build "$folder/400.csv"

# What is timed, its sizes and how long it took.
told() {
  awk -v what="$1" -v took="$2" -v first="$3" 'BEGIN { printf "%-35s %8.1f ms  ratio %.1f\n", what, took / 1000, took / first }'
}

first_table=
first_parts=
while read -r lines parts; do
  records "$lines" >"$folder/$lines.csv"
  took=$(best "$folder/$lines.csv" 0)
  first_table=${first_table:-$took}
  told "$lines records" "$took" "$first_table"
  took=$(best "$folder/$lines.csv" "$parts")
  first_parts=${first_parts:-$took}
  told "$lines records, $parts components" "$took" "$first_parts"
done <<'SIZES'
400 655
4000 6554
40000 65536
SIZES
