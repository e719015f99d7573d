# Read by the scripts that time a program over class files of class_sets.py. They get a folder, `work`, that is removed
# at their end, and this one, `here`.
set -eu
here=$(cd "$(dirname "${BASH_SOURCE[0]}")" && pwd)
work=$(mktemp -d)
trap 'rm -rf "$work"' EXIT

# Proves and builds NAME_program.txt, over a copy of the crates that EDIT leaves of crates.txt and over these libraries:
# `program` is its path. What earlier checks left of the crates counts; it takes minutes at least.
prove() { # NAME EDIT LIBRARY..
  local crate=$1_bench edit=$2 source=$1_program.txt below
  shift 2
  mkdir -p "$work/crates/$crate/src"
  sed "/^#/d; $edit" "$here/../../crates.txt" > "$work/crates.txt"
  for below in $(sed 's,[ :].*,,' "$work/crates.txt"); do
    cp -r "$here/../../crates/$below" "$work/crates/"
  done
  cp "$here/../../HANDLES" "$work/"
  cp "$here/$source" "$work/crates/$crate/src/main.rt"
  cp "$here/files_program.txt" "$work/crates/$crate/src/files.rt"
  echo "$crate: $*" >> "$work/crates.txt"
  (cd "$work/crates/$crate" && rt run > "$work/log" 2>&1) || { tail -20 "$work/log"; exit 1; }
  program=$work/crates/$crate/out/$crate
}

# Writes a set of class files, and times the program over it so many times.
over() { # KIND SIZE TIMES WORD..
  local kind=$1 size=$2 times=$3 turn
  shift 3
  python3 "$here/../shared/class_sets.py" "$kind" "$size" "$work/classes"
  for ((turn = 0; turn < times; turn++)); do
    /usr/bin/time -f '%M KB' "$program" "$work/classes" "$@"
  done
}
