"""How bench/beside and bench/equals/measure build and run their programs."""
import os
import shlex
import subprocess
import sys


def fail(text):
    """Ends the program with a message."""
    print(f"{os.path.basename(sys.argv[0])}: {text}", file=sys.stderr)
    sys.exit(1)


def compiled(command, what):
    """Runs a compiler."""
    if subprocess.run(command, check=False).returncode != 0:
        fail(what + " doesn't compile")


def house_flags():
    """The flags with which a compiler finds the house."""
    flags = subprocess.run(["pkg-config", "--cflags", "--libs", "voldazpe-house"], capture_output=True, text=True, check=False)
    if flags.returncode != 0:
        fail("pkg-config finds no voldazpe-house: install it, and set PKG_CONFIG_PATH\n" + flags.stderr)
    return flags.stdout.split()


def machine():
    """The name of this machine's processor, and its kernel."""
    with open("/proc/cpuinfo", encoding="utf-8") as lines:
        names = [line.split(":", 1)[1] for line in lines if line.startswith("model name")]
    return " ".join((names[0] if names else os.uname().machine).split()) + f", Linux {os.uname().release}"


def ways_of(program):
    """All ways, as the program's usage lists them."""
    said = subprocess.run([program, "-h"], capture_output=True, text=True, check=False).stderr
    return said.rsplit("ways: ", 1)[1].split()


def run(command, timeout):
    """Runs a command. Returns the words of each line that it prints."""
    try:
        ended = subprocess.run(command, capture_output=True, text=True, check=False, timeout=timeout)
    except subprocess.TimeoutExpired:
        fail("a round hangs: " + shlex.join(command))
    if ended.returncode != 0:
        fail(f"a round failed: {shlex.join(command)}\n{ended.stderr}")
    return [line.split() for line in ended.stdout.splitlines()]
