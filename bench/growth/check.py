#!/usr/bin/env python3
"""check.py: proves every room of a fresh clone, one by one, and prints a table: processor seconds and peak memory of each. `rt check` takes up
what it kept in other checkouts on the machine, so run this where there are none."""
import os
import re
import subprocess
import tempfile


def rooms():
    text = re.sub(r"#.*", "", open("crates.txt", encoding="utf-8").read())
    return [line.split(":")[0].split()[0] for line in text.splitlines() if ":" in line]


def measured(words, folder):
    """Processor seconds, and the peak memory in MiB of the largest process, of a command that must succeed."""
    child = subprocess.Popen(words, cwd=folder, stdout=subprocess.DEVNULL, env={**os.environ, "RT_JOBS": "1"})
    _, status, used = os.wait4(child.pid, 0)
    if status:
        raise SystemExit(f"check: {' '.join(words)} failed in {folder}")
    return used.ru_utime + used.ru_stime, used.ru_maxrss / 1024


def main():
    names = rooms()
    with tempfile.TemporaryDirectory() as folder:
        subprocess.run(["git", "clone", "-q", ".", folder], check=True)
        print(f"{'room':14} {'seconds':>8} {'MiB':>6}")
        total = 0.0
        for name in names:
            seconds, memory = measured(["rt", "check"], os.path.join(folder, "crates", name))
            total += seconds
            print(f"{name:14} {seconds:8.1f} {memory:6.0f}", flush=True)
    print(f"{'all':14} {total:8.1f}")


main()
