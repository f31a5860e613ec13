# SPDX-License-Identifier: Apache-2.0
"""What the figures are measured on: the head of the results."""
import os
import platform
import re
import subprocess
import time

from . import programs
from .programs import TOP, Failed


def first_line(words, **how):
    """Returns the first line that a command writes, or `unknown`."""
    try:
        ran = subprocess.run(words, capture_output=True, text=True, errors="replace", timeout=60, **how)
        return ran.stdout.strip().splitlines()[0] if ran.returncode == 0 and ran.stdout.strip() else "unknown"
    except (OSError, subprocess.TimeoutExpired):
        return "unknown"


def field(file, pattern):
    """Returns the first group of a pattern in a file, or `unknown`."""
    try:
        with open(file, encoding="utf-8") as text:
            found = re.search(pattern, text.read(), re.M)
            return found[1].strip() if found else "unknown"
    except OSError:
        return "unknown"


def processor():
    return re.sub(r"\s+", " ", field("/proc/cpuinfo", r"^model name\s*:\s*(.*)$"))


def slug():
    """Returns a name for this machine that serves as a folder's: its processor and how many there are."""
    words = re.sub(r"\((r|tm)\)|\bcpu\b|\bprocessor\b", " ", processor().lower())
    return re.sub(r"[^a-z0-9]+", "-", f"{words} x{os.cpu_count()}").strip("-")


def load():
    """Returns the load averages of the last one, five and fifteen minutes."""
    return [round(it, 2) for it in os.getloadavg()]


def is_idle(averages):
    """Returns whether a machine with these load averages had next to nothing to do. The first one alone tells of the last minute."""
    return averages[0] < 0.5


def clang():
    """Returns the version of the clang that compiles the proved programs."""
    try:
        return first_line([f"{programs.kit()}/toolchain/bin/clang", "--version"])
    except Failed:
        return "unknown"


def openvdb():
    """Returns OpenVDB's version, if the loops over it are built."""
    return first_line([f"{programs.OPENVDB}/loops", "--version"])


def describe():
    """Returns the facts that every table rests on, in the order in which they are shown."""
    memory = field("/proc/meminfo", r"^MemTotal:\s*(\d+)")
    return {
        "Processor": processor(),
        "Processors": str(len(os.sched_getaffinity(0))),
        "Memory": f"{int(memory) * 1024 / 1e9:.1f} GB" if memory.isdigit() else memory,
        "System": f"{field('/etc/os-release', 'PRETTY_NAME=.(.*).$')}, Linux {platform.release()}",
        "C++ compiler": first_line(["g++", "--version"]) + ", -O3, x86-64-v2",
        "Compiler of vdb": f"{clang()}, -O3, x86-64-v2",
        "Kit": first_line(["rt", "version"]),
        "OpenVDB": openvdb(),
        "Repository": first_line(["git", "describe", "--always", "--dirty"], cwd=TOP),
        "Program": f"{os.path.basename(os.environ['VDB'])}, named by VDB" if os.environ.get("VDB") else "crates/vdb/out/vdb",
        "Python": platform.python_version(),
        "Date": time.strftime("%Y-%m-%d %H:%M UTC", time.gmtime()),
    }
