#!/usr/bin/env bash
# Times `read_module` on modules of 1,000, 10,000 and 100,000 lines: the best of three runs each, as ratios to the first.
set -eu
cd "$(dirname "$0")/.."
reader=lg_verilog::read_module
counted=assigns
uses="lg_verilog lg_vprint lg_vread lg_vtree lg_text sqlite_items"
most=134_217_728
. bench/reader.sh

# Half of the lines declare a wire, and half assign to it.
lines() {
  awk -v lines="$1" 'BEGIN {
    print "module c_main("
    print "  input wire [7:0] i_A\n);"
    for (k = 0; k < lines / 2; k++) print "  wire [7:0] w" k "_0;"
    for (k = 0; k < lines / 2; k++) print "  assign w" k "_0 = ((i_A == 8\047d" k % 256 ") ? {i_A[3:0], i_A[7:4]} : (~(i_A ^ 8\047d5)));"
    print "endmodule"
  }'
}

lines 1000 >"$folder/1000.v"
build "$folder/1000.v"

first=
for count in 1000 10000 100000; do
  lines "$count" >"$folder/$count.v"
  took=$(best "$folder/$count.v")
  first=${first:-$took}
  awk -v lines="$count" -v bytes="$(wc -c <"$folder/$count.v")" -v took="$took" -v first="$first" 'BEGIN { printf "%6d lines  %8d bytes  %8.1f ms  ratio %.1f\n", lines, bytes, took / 1000, took / first }'
done
