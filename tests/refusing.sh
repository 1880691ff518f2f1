# What `refuse-allocations` and `refuse-threads` have in common: they source this file. In the first run the first thing is
# refused, in the second the second, and so on, until a run meets no refusal.
tool=$(basename -- "$0")
. "$(dirname -- "$0")/tap.sh"
if ! have "$cc"; then
  echo "$tool: no C compiler $cc: install the Debian package gcc, or set CC" >&2
  exit 1
fi
machine=$root/examples/two-sockets.toml script=$root/examples/three-applications.script
binary=${ARBITER:-$root/crates/arbiter/out/arbiter}

# builds what is loaded into the program
refuse_by() { "$cc" -O2 -shared -fPIC "$root/tests/c/$1" -o "$work/refuse.so" -ldl || exit 1; }

# runs a command in which something is refused; sets `status`, `refused` and `took`, in milliseconds, and fills `out` and `err`
refuse() { # WHICH COMMAND..
  local began=${EPOCHREALTIME/[.,]/}
  rm -f -- "$work/refused"
  timeout 60 env REFUSE="$1" REFUSED="$work/refused" LD_PRELOAD="$work/refuse.so" "${@:2}" \
    <"$work/in" >"$work/out" 2>"$work/err"
  status=$?
  took=$(((${EPOCHREALTIME/[.,]/} - began) / 1000))
  [ -e "$work/refused" ] && refused=yes || refused=no
}

# runs a part with each thing refused in turn: a check holds after each run, some run has a refusal, and some run has none
each() { # NAME SUFFIX CHECK COMMAND..
  local number=0 before=$failed
  refused=yes
  while [ $refused = yes ] && [ $number -lt 5000 ] && [ $((failed - before)) -lt 5 ]; do
    number=$((number + 1))
    refuse "$number$2" "${@:4}"
    if eval "$3"; then
      tell 0 "$1: number $number$2"
    else
      tell 1 "$1: number $number$2: status $status"
      show "$work/out" "$work/err"
    fi
  done
  [ $refused = no ] && [ $number -gt 1 ]
  tell $? "$1: $((number - 1)) refused, and then none"
}

# proves and builds the tests of a crate, if they aren't built or one of their sources is newer
build_tests() { # CRATE
  local tests=$root/crates/$1/out/$1_tests sources=("$root"/crates.txt "$root"/crates/{arb_*,test_parts,"$1"}/{src,specs,proofs}) began
  [ ! -x "$tests" ] || [ -n "$(find "${sources[@]}" -newer "$tests" -print -quit 2>/dev/null)" ] || return 0
  began=$(TZ=UTC0 date +%Y%m%d%H%M.%S)
  (cd -- "$root/crates/$1" && rt test) >&2 && TZ=UTC0 touch -t "$began" "$tests"
}

# runs a test of a crate with each thing refused in turn
test_each() { # NAME SUFFIX CHECK CRATE TEST
  build_tests "$4" || { echo "$tool: the tests could not be built" >&2; exit 1; }
  : >"$work/in"
  each "$1" "$2" "$3" "$root/crates/$4/out/$4_tests" "$5"
}

# prints the usage and ends
usage() {
  sed -n 's/^# Usage: /usage: /p' "$0" >&2
  exit 2
}

# runs the parts that are named
run_parts() {
  local name
  for name in "$@"; do part "$name"; done
  finish
}
