#!/usr/bin/env bash
# Times `lg export` of wide circuits of 100, 1,000 and 10,000 gates and of chains of 1,000, 10,000 and 60,000, and `lg vrun`
# of their modules on one row: the best of three runs each, as ratios to the first. Then `lg vrun` on 65,536 rows.
set -u
cd "$(dirname "$0")/.." || exit 1
program=$PWD/crates/lg/out/lg
[ -x "$program" ] || { echo "bench/export.sh: no program at crates/lg/out/lg; 'rt ci' builds it"; exit 1; }
folder=$(mktemp -d) || exit 1
trap 'rm -rf "$folder"' EXIT

# All gates read the pins A and B from two upright wires, which the branches cross; each has an output pin of its own.
wide() {
  awk -v gates="$1" 'BEGIN {
    print "<project><lib desc=\"#Wiring\" name=\"0\"/><lib desc=\"#Gates\" name=\"1\"/><circuit name=\"main\">"
    print "<comp lib=\"0\" loc=\"(10,0)\" name=\"Pin\"><a name=\"label\" val=\"A\"/></comp>"
    print "<comp lib=\"0\" loc=\"(20,0)\" name=\"Pin\"><a name=\"label\" val=\"B\"/></comp>"
    printf "<wire from=\"(10,0)\" to=\"(10,%d)\"/><wire from=\"(20,0)\" to=\"(20,%d)\"/>\n", 60 * gates, 60 * gates
    for (k = 0; k < gates; k++) {
      y = 60 * k + 30
      printf "<comp lib=\"1\" loc=\"(100,%d)\" name=\"%s Gate\"/>", y, k % 2 ? "OR" : "AND"
      printf "<comp lib=\"0\" loc=\"(100,%d)\" name=\"Pin\"><a name=\"output\" val=\"true\"/><a name=\"label\" val=\"Y\"/></comp>", y
      printf "<wire from=\"(10,%d)\" to=\"(50,%d)\"/><wire from=\"(20,%d)\" to=\"(50,%d)\"/>\n", y - 20, y - 20, y + 20, y + 20
    }
    print "</circuit></project>"
  }'
}

# A chain of NOT gates, in rows of 10,000. The last gate stands first, so that each reads one that stands behind it.
chain() {
  awk -v gates="$1" 'BEGIN {
    row = 10000
    print "<project><lib desc=\"#Wiring\" name=\"0\"/><lib desc=\"#Gates\" name=\"1\"/><circuit name=\"main\">"
    print "<comp lib=\"0\" loc=\"(0,0)\" name=\"Pin\"><a name=\"label\" val=\"A\"/></comp>"
    for (k = gates - 1; k >= 0; k--)
      printf "<comp lib=\"1\" loc=\"(%d,%d)\" name=\"NOT Gate\"/>\n", 30 * (k % row + 1), 100 * int(k / row)
    last = gates - 1
    printf "<comp lib=\"0\" loc=\"(%d,%d)\" name=\"Pin\">", 30 * (last % row + 1), 100 * int(last / row)
    print "<a name=\"output\" val=\"true\"/><a name=\"label\" val=\"Y\"/></comp>"
    for (y = 0; y < 100 * int(last / row); y += 100) {
      printf "<wire from=\"(%d,%d)\" to=\"(%d,%d)\"/>", 30 * row, y, 30 * row, y + 50
      printf "<wire from=\"(0,%d)\" to=\"(%d,%d)\"/>", y + 50, 30 * row, y + 50
      printf "<wire from=\"(0,%d)\" to=\"(0,%d)\"/>\n", y + 50, y + 100
    }
    print "</circuit></project>"
  }'
}

# Microseconds of the best of three runs with these words; what the last one printed stands in out.
best() {
  local least= from to took
  for _ in 1 2 3; do
    from=$(date +%s%N)
    "$program" "$@" >"$folder/out" || exit 1
    to=$(date +%s%N)
    took=$(((to - from) / 1000))
    if [ -z "$least" ] || [ "$took" -lt "$least" ]; then least=$took; fi
  done
  echo "$least"
}

# A shape of circuit, the header of its rows and one row, and its sizes.
compare() {
  local shape=$1 gates took ran first= first_ran=
  printf '%s\n%s\n' "$2" "$3" >"$folder/one.rows"
  shift 3
  for gates in "$@"; do
    "$shape" "$gates" >"$folder/$gates.circ"
    took=$(best export "$folder/$gates.circ")
    mv "$folder/out" "$folder/$gates.v"
    ran=$(best vrun "$folder/$gates.v" "$folder/one.rows")
    first=${first:-$took} first_ran=${first_ran:-$ran}
    awk -v shape="$shape" -v gates="$gates" -v took="$took" -v first="$first" -v ran="$ran" -v first_ran="$first_ran" \
      'BEGIN { printf "%-5s %6d gates  export %8.1f ms  ratio %.1f  vrun %8.1f ms  ratio %.1f\n", shape, gates, took / 1000, took / first, ran / 1000, ran / first_ran }'
  done
}

compare wide 'A B' '1 0' 100 1000 10000
compare chain A 1 1000 10000 60000

"$program" export examples/full_adder.circ >"$folder/full_adder.v" || exit 1
{ echo 'A B Cin'; seq 65536 | awk '{ print $1 % 2, int($1 / 2) % 2, int($1 / 4) % 2 }'; } >"$folder/most.rows"
awk -v ran="$(best vrun "$folder/full_adder.v" "$folder/most.rows")" 'BEGIN { printf "full adder on 65536 rows  vrun %.1f ms\n", ran / 1000 }'
