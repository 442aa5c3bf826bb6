#!/usr/bin/env bash
# The real program's statuses, standard output and standard error, for a table of words. Silent where all is well.
set -u
cd "$(dirname "$0")/.." || exit 1
program=$PWD/crates/lg/out/lg
[ -x "$program" ] || { echo "checks/program.sh: no program at crates/lg/out/lg"; exit 1; }
folder=$(mktemp -d) || exit 1
trap 'rm -rf "$folder"' EXIT
cp examples/*.circ examples/*.v examples/*.rows "$folder"
echo '<project/>' > "$folder/empty.circ"
echo 'no project' > "$folder/text.circ"
echo '<project><lib desc="#Gates" name="1"/><circuit name="main"><comp lib="1" loc="(130,60)" name="NOT Gate"/></circuit></project>' > "$folder/loose.circ"
head -c 8388609 /dev/zero > "$folder/long.circ"
head -c 134217729 /dev/zero > "$folder/long.v"
head -c 16777217 /dev/zero > "$folder/long.rows"
echo 'module m' > "$folder/no_end.v"
{ echo 'A B'; seq 65536 | awk '{ print $1 % 2, int($1 / 2) % 2 }'; } > "$folder/most.rows"
{ cat "$folder/most.rows"; echo '0 0'; } > "$folder/more.rows"
printf 'A B\r\n1 0\r\n\r\n1 1' > "$folder/returns.rows"
cat > "$folder/and.v" <<'END'
module c_main(
  input wire i_A,
  input wire i_B,
  output wire o_Y
);
  assign o_Y = (i_A & i_B);
endmodule
END
mkdir "$folder/folder.circ"
cd "$folder" || exit 1
failed=0

# status, the line on standard error, where standard output goes, the words
expect() {
  local status=$1 line=$2 out=$3
  shift 3
  "$program" "$@" >"$out" 2>err
  local got=$?
  if [ "$got" != "$status" ] || [ "$(cat err)" != "$line" ]; then
    echo "checks/program.sh: lg $*: status $got for $status, line '$(cat err)' for '$line'"
    failed=1
  fi
}

usage='lg: usage: lg VERB [OPTIONS] ARGUMENTS'
expect 0 '' out export not.circ
cmp -s out "$OLDPWD/crates/lg/stdout" || { echo "checks/program.sh: another text for not.circ"; failed=1; }
expect 2 "$usage" out
expect 2 "$usage" out export
expect 2 "$usage" out export ''
expect 2 "$usage" out export -x
expect 2 "$usage" out export not.circ not.circ
expect 2 "$usage" out $'export' $'\xff'
expect 3 'lg: input: none.circ: Missing' out export none.circ
expect 3 'lg: input: empty.circ: NotBuilt' out export empty.circ
expect 3 'lg: input: text.circ: NotProject' out export text.circ
expect 3 'lg: input: long.circ: TooLong' out export long.circ
expect 4 'lg: not accepted: Undriven main(130,60) NOT Gate in' out export loose.circ
expect 5 'lg: read fault: folder.circ' out export folder.circ
expect 6 'lg: write fault' /dev/full export not.circ

# A student's way: a drawing, its module, the module's outputs.
expect 0 '' full_adder.v export full_adder.circ
expect 0 '' out vrun full_adder.v full_adder.rows
printf '%s\n' 'row S Cout' '1 0 0' '2 1 0' '3 1 0' '4 0 1' '5 1 0' '6 0 1' '7 0 1' '8 1 1' | tr ' ' '\t' | cmp -s - out ||
  { echo "checks/program.sh: other outputs of the full adder"; failed=1; }
expect 0 '' out vrun and.v most.rows
{ printf 'row\tY\n'; seq 65536 | awk '{ print $1 "\t" ($1 % 4 == 3) }'; } | cmp -s - out ||
  { echo "checks/program.sh: other outputs on 65536 rows"; failed=1; }
expect 0 '' out vrun and.v returns.rows
printf 'row\tY\n1\t0\n2\t1\n' | cmp -s - out || { echo "checks/program.sh: other outputs on lines that end in CR LF"; failed=1; }
expect 2 "$usage" out vrun and.v
expect 2 "$usage" out vrun and.v most.rows most.rows
expect 2 "$usage" out vrun and.v -
expect 3 'lg: input: none.v: Missing' out vrun none.v none.rows
expect 3 'lg: input: none.rows: Missing' out vrun and.v none.rows
expect 3 'lg: input: no_end.v: NotSubset' out vrun no_end.v none.rows
expect 3 'lg: input: long.v: TooLong' out vrun long.v none.rows
expect 3 'lg: input: long.rows: TooLong' out vrun and.v long.rows
expect 3 'lg: input: more.rows: TooManyRows' out vrun and.v more.rows
expect 5 'lg: read fault: folder.circ' out vrun folder.circ most.rows
expect 5 'lg: read fault: folder.circ' out vrun and.v folder.circ
expect 6 'lg: write fault' /dev/full vrun and.v most.rows
exit $failed
