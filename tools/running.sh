# For a script to source.

# set_run PROGRAM: sets `run` to the words that run the program, which is for x86-64, as the toolchain is.
set_run() {
  run=("$1")
}

# sources ROOT: the toolchain, and each file of the crates by name, size and times: any change shows, also one that makes a file older. What rt
# makes of them, in each crate's folder out, is no source.
sources() {
  (cd "$1" && rt version </dev/null && find crates.txt crates -type d -name out -prune -o -type f -printf '%p %s %T@ %C@\n' | sort)
}
