"""What the scripts of this folder share: encoding XDR, and running a program for its processor time and its peak memory.

Times are processor time, of the program and of the system for it, since it is disturbed less by what else the machine does than the
time on the clock. The best of several runs counts. Python 3.9 or later and its standard library.
"""

import os
import struct
import subprocess
import sys

TOP = os.path.dirname(os.path.dirname(os.path.abspath(__file__)))

# Starts a command with these files as its standard input and output, from a process that is small (what a process uses before it
# becomes the command counts as the command's peak memory). Prints the processor time in seconds, the exit status, and the peak
# memory in kB.
STARTER = """
import os, sys
source, target, *words = sys.argv[1:]
opened = [
    (os.POSIX_SPAWN_OPEN, 0, source, os.O_RDONLY, 0),
    (os.POSIX_SPAWN_OPEN, 1, target, os.O_WRONLY | os.O_CREAT | os.O_TRUNC, 0o600),
]
child = os.posix_spawnp(words[0], words, os.environ, file_actions=opened)
_, status, used = os.wait4(child, 0)
print(used.ru_utime + used.ru_stime, os.waitstatus_to_exitcode(status), used.ru_maxrss)
"""


def stop(why):
    """Ends the script: a run failed or printed something else than it should."""
    print(f"{os.path.basename(sys.argv[0])}: {why}", file=sys.stderr)
    sys.exit(2)


def u32(number):
    return struct.pack(">I", number)


def i32(number):
    return struct.pack(">i", number)


def u64(number):
    return struct.pack(">Q", number)


def i64(number):
    return struct.pack(">q", number)


def opaque(content):
    """Bytes after their number, filled up with zero bytes to a multiple of four."""
    return u32(len(content)) + content + bytes(-len(content) % 4)


def built(name):
    """The built program of a crate of this repository."""
    return f"{TOP}/crates/{name}/out/{name}"


def run(words, runs, folder, source=os.devnull, expected=None):
    """Runs a command, and returns its least processor time in seconds, its greatest peak memory in kB, and its output.

    The output has to be what is expected, where something is.
    """
    target = f"{folder}/output"
    best, most = float("inf"), 0
    for _ in range(runs):
        starter = [sys.executable, "-I", "-S", "-c", STARTER, source, target, *words]
        ran = subprocess.run(starter, stdout=subprocess.PIPE, check=False)
        if ran.returncode:
            stop(f"{words[0]} could not be run")
        seconds, status, memory = ran.stdout.split()
        if int(status):
            stop(f"{' '.join(words)} ended with status {int(status)}")
        best, most = min(best, float(seconds)), max(most, int(memory))
    with open(target, "rb") as file:
        output = file.read()
    if expected is not None and output.decode() != expected:
        stop(f"{' '.join(words)} printed {output[:200]!r}")
    return best, most, output
