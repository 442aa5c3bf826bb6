#!/usr/bin/env bash
# Times `read_project` on 0.1, 1 and 8 MiB of a project as the drawing tool saves it: the best of three runs each, as ratios to the first.
set -eu
cd "$(dirname "$0")/.."
reader=lg_circ::read_project
counted=sheets
uses="lg_circ lg_text sqlite_items"
most=16_777_216
. bench/reader.sh

# A project of about so many bytes, with sheets of 200 gates.
project() {
  awk -v bytes="$1" 'BEGIN {
    print "<?xml version=\"1.0\" encoding=\"UTF-8\" standalone=\"no\"?>"
    print "<project source=\"3.8.0\" version=\"1.0\">"
    print "  <lib desc=\"#Wiring\" name=\"0\">\n    <tool name=\"Pin\">\n      <a name=\"appearance\" val=\"classic\"/>\n    </tool>\n  </lib>"
    print "  <lib desc=\"#Gates\" name=\"1\"/>\n  <main name=\"sheet0\"/>"
    print "  <options>\n    <a name=\"gateUndefined\" val=\"ignore\"/>\n    <a name=\"simlimit\" val=\"1000\"/>\n  </options>"
    for (sheet = 0; written < bytes; sheet++) {
      line = "  <circuit name=\"sheet" sheet "\">\n    <a name=\"circuit\" val=\"sheet" sheet "\"/>"
      for (gate = 0; gate < 200; gate++) {
        x = 10 * (gate % 40); y = 10 * gate
        line = line "\n    <comp lib=\"1\" loc=\"(" x "," y ")\" name=\"AND Gate\">\n      <a name=\"label\" val=\"a &amp; b\"/>\n      <a name=\"size\" val=\"30\"/>\n    </comp>"
        line = line "\n    <wire from=\"(" x "," y ")\" to=\"(" x + 40 "," y ")\"/>"
      }
      line = line "\n  </circuit>"
      print line
      written += length(line) + 1
    }
    print "</project>"
  }'
}

project 1000 >"$folder/small.circ"
build "$folder/small.circ"

first=
for bytes in 100000 1000000 8350000; do
  project "$bytes" >"$folder/$bytes.circ"
  size=$(stat -c %s "$folder/$bytes.circ")
  took=$(best "$folder/$bytes.circ")
  first=${first:-$took}
  awk -v size="$size" -v took="$took" -v first="$first" 'BEGIN { printf "%8d bytes  %8.1f ms  ratio %.1f\n", size, took / 1000, took / first }'
done
