"""What the scripts that measure share: the program, calls with their seconds, peak memory and instructions, a Python
with the libraries of others, and numbers drawn by Knuth's linear congruential generator."""

import os
import re
import shutil
import subprocess
import sys
import tempfile
import time
from collections import namedtuple
from pathlib import Path

ROOT = Path(__file__).resolve().parent.parent
Call = namedtuple("Call", "text seconds mebibytes")


class Generator:
    def __init__(self, seed):
        self.state = seed

    def below(self, bound):
        self.state = (self.state * 6364136223846793005 + 1442695040888963407) % 2**64
        return (self.state >> 33) % bound


def kept(parser, program):
    """The program that is named, or else the one that `rt run` or `rt ci` left; the script ends where it isn't there."""
    program = (program or ROOT / "crates" / "ofit" / "out" / "ofit").resolve()
    if not program.is_file():
        parser.error(f"{program} isn't there: `rt run` in crates/ofit makes it")
    return program


def built(program):
    """The program that is named, or else the one that `rt run` proves and builds, which takes minutes."""
    if program is None:
        print("proving and building, which may take minutes ..", flush=True)
        crate = ROOT / "crates" / "ofit"
        first = ["rt", "run", "--", "fit", ROOT / "examples" / "dose_response.csv", "places=0"]
        subprocess.run(first, cwd=crate, check=True, stdout=subprocess.DEVNULL)
        program = crate / "out" / "ofit"
    return str(program.resolve())


def high_water(pid):
    """The most memory that a process has held so far, in KiB. The system's own count at its end would begin with that
    of this script."""
    try:
        found = re.search(r"VmHWM:\s+(\d+)", Path(f"/proc/{pid}/status").read_text())
    except OSError:
        return 0
    return int(found.group(1)) if found else 0


def call(command, cwd, statuses=(0,)):
    """What a command prints, its seconds and its peak memory; any other status ends the measurement."""
    with tempfile.TemporaryFile() as out:
        begin = time.perf_counter()
        child = subprocess.Popen(command, cwd=cwd, stdout=out, stderr=subprocess.DEVNULL)
        peak = 0
        while (ended := os.wait4(child.pid, os.WNOHANG))[0] == 0:
            peak = max(peak, high_water(child.pid))
            time.sleep(0.0002)
        seconds, status = time.perf_counter() - begin, ended[1]
        out.seek(0)
        text = out.read().decode()
    if (code := os.waitstatus_to_exitcode(status)) not in statuses:
        sys.exit(f"{' '.join(map(str, command[:2]))} ended with status {code}")
    return Call(text, seconds, peak / 1024)


def fastest(command, cwd, rounds):
    return min((call(command, cwd) for _ in range(rounds)), key=lambda outcome: outcome.seconds)


def instructions(command, cwd):
    callgrind = ["valgrind", "--tool=callgrind", "--callgrind-out-file=/dev/null"]
    done = subprocess.run(callgrind + command, cwd=cwd, capture_output=True, text=True)
    return int(re.search(r"Collected\s*:\s*(\d+)", done.stderr).group(1))


def python_with(*modules):
    """The first python3, the system's own or one on the path, that has these modules, or None."""
    for folder in ["/usr/bin", *os.environ.get("PATH", "").split(os.pathsep)]:
        python = shutil.which("python3", path=folder)
        if python and not subprocess.run([python, "-c", f"import {', '.join(modules)}"], stderr=subprocess.DEVNULL).returncode:
            return python
    return None
