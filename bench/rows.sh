#!/usr/bin/env bash
# Times modules that are read, tested and run: 64 stages, each a 16-bit adder and register, and a memory of 2^20 words, on 1
# and on 65,536 rows; and chains of 1,000, 10,000 and 100,000 assigns, the last first, on 1 row. The best of three runs each.
set -eu
cd "$(dirname "$0")/.."
name=bench_rows
. bench/program.sh

# Builds the program that runs a module on so many rows.
build() {
  build_program "lg_io lg_verilog lg_vprint lg_vread lg_vtree lg_vmachine lg_vrules lg_vmeaning sqlite_items" "$1" 1 <<'PROGRAM'
//! Runs a module on so many rows, and says by its status whether it could be run.
#![tactic(auto)]

use lg_io::{Files, HostFiles};
use lg_verilog::read_module;
use lg_vmeaning::valid;
use sqlite_items::Items;
use std::alloc::Global;
use std::env;
use std::process::ExitCode;

fn main(rt: HostRuntime) -> ExitCode {
    match rows_of_file(rt) {
        Some(_) => ExitCode::SUCCESS,
        None => ExitCode::FAILURE,
    }
}

fn rows_of_file(rt: HostRuntime) -> Option<usize> {
    let alloc = rt.alloc();
    let mut words = env::args(&rt).ok()?.skip(1);
    let name = words.next()?;
    let count = words.next()?.as_str().parse::<u64>().ok()?;
    let mut files = HostFiles::new(rt);
    let bytes = files.read(alloc, name.as_str(), 134_217_728).ok()?;
    let module = valid(alloc, read_module(alloc, bytes.as_slice()).ok()?).ok()?;
    let rows = rows(alloc, count)?;
    if !module.all_fit(rows.as_slice()) {
        return None;
    }
    Some(module.run_rows(alloc, rows.as_slice()).ok()?.len())
}

fn rows(alloc: Global, count: u64) -> Option<Vec<Items<u64>>> {
    let mut rows = Vec::new(alloc);
    let mut value: u64 = 1;
    for _ in 0..count {
        rows.push(Items::from_slice(alloc, &[value]).ok()?).ok()?;
        value = value.wrapping_mul(5).wrapping_add(3) % 65536;
    }
    Some(rows)
}
PROGRAM
}

# Stage k keeps the sum of what it keeps and of what stage k - 1 does.
stages() {
  awk -v stages="$1" 'BEGIN {
    print "module c_main(input wire clk, input wire [15:0] i_A, output wire [15:0] o_Y);"
    for (k = 0; k < stages; k++) {
      a = 2 * k; r = a + 1
      printf "  wire [15:0] x%d_0;\n  wire [15:0] x%d_1;\n  wire [16:0] t%d_0;\n  wire [15:0] w%d_0;\n", a, a, a, a
      printf "  wire [15:0] x%d_0;\n  wire [15:0] w%d_0;\n  reg [15:0] r%d = 16\047d0;\n", r, r, r
    }
    for (k = 0; k < stages; k++) {
      a = 2 * k; r = a + 1
      printf "  assign x%d_0 = w%d_0;\n  assign x%d_1 = %s;\n", a, r, a, k == 0 ? "i_A" : "w" (r - 2) "_0"
      printf "  assign t%d_0 = ({1\047d0, x%d_0} + {1\047d0, x%d_1});\n  assign w%d_0 = t%d_0[15:0];\n", a, a, a, a, a
      printf "  assign x%d_0 = w%d_0;\n  assign w%d_0 = r%d;\n", r, a, r, r
    }
    printf "  assign o_Y = w%d_0;\n  always @(posedge clk) begin\n", 2 * stages - 1
    for (k = 0; k < stages; k++) printf "    r%d <= x%d_0;\n", 2 * k + 1, 2 * k + 1
    print "  end\nendmodule"
  }'
}

# Each row adds 1 to a word.
memory() {
  cat <<'MODULE'
module c_main(input wire clk, input wire [15:0] i_A, output wire [15:0] o_Y);
  reg [15:0] m0 [0:1048575];
  integer k;
  initial begin
    for (k = 0; k < 1048576; k = k + 1) m0[k] = 16'd0;
  end
  assign o_Y = m0[{4'd0, i_A}];
  always @(posedge clk) begin
    if (1'd1) m0[{4'd0, i_A}] <= (o_Y + 16'd1);
  end
endmodule
MODULE
}

# Each wire is the complement of the one before it; the last is given its number first.
chain() {
  awk -v wires="$1" 'BEGIN {
    print "module c_main(input wire [15:0] i_A, output wire [15:0] o_Y);"
    for (k = 0; k < wires; k++) printf "  wire [15:0] w%d_0;\n", k
    printf "  assign o_Y = w%d_0;\n", wires - 1
    for (k = wires - 1; k > 0; k--) printf "  assign w%d_0 = (~w%d_0);\n", k, k - 1
    print "  assign w0_0 = (~i_A);\nendmodule"
  }'
}

stages 64 >"$folder/stages.v"
build "$folder/stages.v"
memory >"$folder/memory.v"
for shape in stages memory; do
  one=$(best "$folder/$shape.v" 1)
  all=$(best "$folder/$shape.v" 65536)
  awk -v shape="$shape" -v one="$one" -v all="$all" 'BEGIN { printf "%-6s  1 row %.1f ms  65,536 rows %.1f ms  %.4f ms a row\n", shape, one / 1000, all / 1000, (all - one) / 65535 / 1000 }'
done

first=
for count in 1000 10000 100000; do
  chain "$count" >"$folder/$count.v"
  took=$(best "$folder/$count.v" 1)
  first=${first:-$took}
  awk -v assigns="$count" -v took="$took" -v first="$first" 'BEGIN { printf "%6d assigns  %8.1f ms  ratio %.1f\n", assigns, took / 1000, took / first }'
done
