# What tests have in common: they source this file. A test prints TAP, the Test Anything Protocol, which `prove` reads: a line for each
# check, `ok 1 - NAME` or `not ok 1 - NAME`, with what it said in lines that begin with `# `; `ok 2 # SKIP REASON` for what can't be
# checked on this machine; and at the end how many checks there were, `1..2`.
root=$(CDPATH='' cd -P -- "$(dirname -- "${BASH_SOURCE[0]}")/.." && pwd) || exit 1
arbiter=${ARBITER:-$root/arbiter} cc=${CC:-cc}
work=$(mktemp -d) || exit 1
trap 'rm -rf -- "$work"' EXIT
checks=0 failed=0

have() { command -v "$1" >/dev/null; }

# prints the first 20 lines of what a check said, and the last 30
show() { # FILE..
  awk '{ line[NR] = substr($0, 1, 200) }
    END { for (n = 1; n <= NR; n++) if (n <= 20 || n > NR - 30) print "#   " line[n]; else if (n == 21) print "#   .." }' "$@"
}

# prints a check that was made: it holds if its status is 0
tell() { # STATUS NAME
  local name=${2//[[:cntrl:]]/ } no=''
  checks=$((checks + 1))
  [ "$1" = 0 ] || { failed=$((failed + 1)) no='not '; }
  echo "${no}ok $checks - ${name//\#/\\#}"
}

# makes a check by a command: it holds if the command ends with 0
holds() { # NAME COMMAND..
  local held=0
  "${@:2}" >"$work/said" 2>&1 </dev/null || held=$?
  tell $held "$1"
  [ $held = 0 ] || show "$work/said"
}

skip() { # REASON
  checks=$((checks + 1))
  echo "ok $checks # SKIP $1"
}

# sets `processor` to the seconds of processor time that this shell took, and the programs that it waited for
note_processor_time() {
  times >"$work/times"
  processor=$(tr ' ' '\n' <"$work/times" | awk -F '[ms]' '{ sum += 60 * $1 + $2 } END { print int(sum) }')
}

# ends a test with its times and its plan
finish() {
  [ $checks != 0 ] || tell 1 'something is checked'
  note_processor_time
  echo "# took $SECONDS s, and $processor s of processor time"
  echo "1..$checks"
  exit $((failed != 0))
}

# makes a prefix for this test alone, $prefix, with the library and the house: a copy of INSTALLED, where tools/c-install has put
# them, or installed afresh if that isn't set
own_prefix() {
  prefix=$work/prefix
  if [ -n "${INSTALLED-}" ]; then
    holds 'a copy of the prefix' cp -R -- "$INSTALLED" "$prefix"
  else
    holds 'install' "$root/tools/c-install" "$prefix"
  fi
  holds 'install the house' env "CC=$cc" "$root/house/build" "$prefix"
  [ $failed = 0 ] || finish
}

# four processors at most that this may use, each of another core, with commas between: a house manages all of them but the first
of_other_cores() {
  python3 - <<'PYTHON'
import os

cores = {}  # of each, by what the system says of its hardware threads, the first that this may use
for processor in sorted(os.sched_getaffinity(0)):
    try:
        with open(f"/sys/devices/system/cpu/cpu{processor}/topology/thread_siblings_list", encoding="utf-8") as file:
            core = file.read()
    except OSError:
        core = processor
    cores.setdefault(core, str(processor))
print(",".join(list(cores.values())[:4]))
PYTHON
}
