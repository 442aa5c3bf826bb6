# What the benches that build a program share. A bench sets `name`, the program's, before it reads this file in, and calls
#   build_program "CRATES" WORD ..   which builds the program whose main.rt comes on standard input, over these crates, in a
#                                    copy of the repository and outside it, and runs it on these words
#   best WORD ..                     which tells the microseconds of the best of three runs on these words
# $folder is a folder that is gone at the end.
folder=$(mktemp -d)
trap 'rm -rf "$folder"' EXIT
crate=$folder/repo/crates/$name

build_program() {
  local uses=$1
  shift
  git clone -q . "$folder/repo"
  mkdir -p "$crate/src"
  cat >"$crate/src/main.rt"
  echo "$name: $uses" >>"$folder/repo/crates.txt"
  (cd "$crate" && rt run -- "$@") >"$folder/build.log" 2>&1 || { cat "$folder/build.log"; exit 1; }
}

best() {
  local least= from to took
  for _ in 1 2 3; do
    from=$(date +%s%N)
    "$crate/out/$name" "$@"
    to=$(date +%s%N)
    took=$(((to - from) / 1000))
    if [ -z "$least" ] || [ "$took" -lt "$least" ]; then least=$took; fi
  done
  echo "$least"
}
