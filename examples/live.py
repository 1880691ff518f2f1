#!/usr/bin/env python3
"""Keeps an arbiter on a pipe: one thread of application 0 gets a core."""
import os
import subprocess
import sys

# The usual program is the one of a checkout, or else the one on the path.
USUAL = "./arbiter" if os.path.exists("./arbiter") else "arbiter"
BESIDE = os.path.join(os.path.dirname(os.path.abspath(__file__)), "two-sockets.toml")
PROGRAM, MACHINE = sys.argv[1:] if len(sys.argv) == 3 else (USUAL, BESIDE)


def ask(arbiter, line):
    """Sends one line, and gives the lines of its answer."""
    arbiter.stdin.write(line + "\n")
    arbiter.stdin.flush()
    answer = [arbiter.stdout.readline().rstrip("\n")]
    while line == "cores" and answer[-1] not in ("end", ""):
        answer.append(arbiter.stdout.readline().rstrip("\n"))
    return answer


command = [PROGRAM, "live", "--config", MACHINE]
with subprocess.Popen(command, stdin=subprocess.PIPE, stdout=subprocess.PIPE, text=True) as arbiter:
    for line in ["0.0 join", "0.0 ask 1", "0.0 block", "0.0 blok", "cores"]:
        print(*ask(arbiter, line), sep="\n")
    arbiter.stdin.close()
sys.exit(arbiter.returncode)
