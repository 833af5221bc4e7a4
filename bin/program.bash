# For the scripts that run a program, which source this with `script` (their name in messages) and `crate` set. The program is proved and built first where it
# is missing or older than its sources; `run` is then the command that starts it.

fail() {
  echo "$script: $*" >&2
  exit 2
}

root=$(cd "$(dirname "${BASH_SOURCE[0]}")/.." && pwd) || exit 2
program=$root/crates/$crate/out/$crate

# What is touched after the build's beginning is newer; a folder is, once a file of it is gone. out/ is made beside the sources, and with it its crate's folder changes: neither counts.
newer() {
  find "$root/crates" -mindepth 2 -name out -prune -o -newer "$program" -print -quit
  find "$root/crates.txt" -newer "$program"
}

if [ ! -x "$program" ] || [ -n "$(newer)" ]; then
  command -v rt >/dev/null 2>&1 || fail "the $crate program is to be built, and the Rattle kit's command rt is not on the PATH"
  [ "$(uname -m)" = x86_64 ] || fail "the $crate program is built and run on x86-64 Linux, and this machine is $(uname -m)"
  began=$(mktemp) && log=$(mktemp) || exit 2
  trap 'rm -f "$began" "$log"' EXIT
  # rt builds a program by running it: here once, on no input.
  if ! (cd "$root/crates/$crate" && rt run) </dev/null >"$log" 2>&1 || [ ! -x "$program" ]; then
    cat "$log" >&2
    fail "the $crate program was not built"
  fi
  touch -r "$began" "$program"
  rm -f "$began" "$log"
  trap - EXIT
fi

run=("$program")
