#!/usr/bin/env bash
# Times `read_vector` on 1,000, 8,000 and 64,000 rows of ten columns: the best of three runs each, as ratios to the first.
set -eu
cd "$(dirname "$0")/.."
reader=lg_vectors::read_vector
counted=rows
uses="lg_vectors lg_value lg_text sqlite_items"
most=16_777_216
. bench/reader.sh

rows() {
  awk -v rows="$1" 'BEGIN {
    print "A B[8] C[16] D[32] E[64] F[4] G[8] H[16] I B2[3]"
    for (k = 0; k < rows; k++) print k % 2, k % 256, "0x1ax5", -k, "0xffffffffffffffff", "10x1", "0o17x", k % 65536, "x", "101"
  }'
}

rows 1000 >"$folder/1000.txt"
build "$folder/1000.txt"

first=
for count in 1000 8000 64000; do
  rows "$count" >"$folder/$count.txt"
  took=$(best "$folder/$count.txt")
  first=${first:-$took}
  awk -v rows="$count" -v took="$took" -v first="$first" 'BEGIN { printf "%6d rows  %8.1f ms  ratio %.1f\n", rows, took / 1000, took / first }'
done
