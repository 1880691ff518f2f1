#!/usr/bin/env bash
# Keeps an arbiter on a pipe: one thread of application 0 gets a core.
# Usage: live.sh [PROGRAM [MACHINE]]     (./arbiter if it is there, or else the one on the path; two-sockets.toml beside this)
set -eu
program=${1:-./arbiter} machine=${2:-$(dirname -- "$0")/two-sockets.toml}
[ $# != 0 ] || [ -e "$program" ] || program=arbiter

coproc ARBITER { "$program" live --config "$machine"; }
id=$ARBITER_PID

# sends one line, and prints its answer of one line
ask() {
  echo "$1" >&"${ARBITER[1]}"
  read -r answer <&"${ARBITER[0]}"
  echo "$answer"
}

ask "0.0 join"
ask "0.0 ask 1"
ask "0.0 block"
ask "0.0 blok"
echo cores >&"${ARBITER[1]}"
while read -r line <&"${ARBITER[0]}"; do
  echo "$line"
  [ "$line" != end ] || break
done
exec {ARBITER[1]}>&-
wait "$id"
