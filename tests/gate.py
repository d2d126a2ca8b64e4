#!/usr/bin/env python3
"""Runs a command that checks crates, as `rt ci`, and prints behind its output how many seconds each crate took.

The seconds are those of one processor, summed over the prover's processes: for a crate's proof, for its tests (which are
proved like all else), and for its must-fail edits. They are read from /proc twice a second while the command runs.
"""
import os
import re
import subprocess
import sys
import threading
import time

MARK = "URWEB_GATE"
TICKS = os.sysconf("SC_CLK_TCK")
PHASES = ("proof", "tests", "edits")
EDITS = re.compile(r"^rt: (\w+): trying its must-fail edits")


class Watch:
    """What the prover's processes of one run have used so far."""

    def __init__(self, mark):
        self.mark, self.tried, self.known, self.used = mark, set(), {}, {}

    def task_of(self, process):
        """The crate and the phase that a process works for, or None."""
        try:
            with open(f"/proc/{process}/environ", "rb") as it:
                if f"{MARK}={self.mark}".encode() not in it.read().split(b"\0"):
                    return None
            with open(f"/proc/{process}/cmdline", "rb") as it:
                words = it.read().decode(errors="replace").split("\0")
        except OSError:
            return None
        if "--crate-name" not in words[:-1]:
            return None
        crate = words[words.index("--crate-name") + 1]
        return crate, "edits" if crate in self.tried else "tests" if "--test" in words else "proof"

    def look(self):
        for process in filter(str.isdigit, os.listdir("/proc")):
            try:
                with open(f"/proc/{process}/stat", encoding="utf-8", errors="replace") as it:
                    fields = it.read().rsplit(")", 1)[1].split()
            except OSError:
                continue
            key = process, fields[19]
            if not self.known.get(key):
                self.known[key] = self.task_of(process)
            if self.known[key]:
                self.used[key] = (int(fields[11]) + int(fields[12])) / TICKS

    def seconds(self):
        """The seconds of each crate by phase."""
        found = {}
        for key, used in self.used.items():
            crate, phase = self.known[key]
            found.setdefault(crate, dict.fromkeys(PHASES, 0.0))[phase] += used
        return found


def table(found, wall):
    lines = [f"{'seconds of a processor':24}" + "".join(f"{it:>8}" for it in (*PHASES, "all"))]
    for crate, used in sorted(found.items(), key=lambda it: -sum(it[1].values())):
        lines.append(f"{crate:24}" + "".join(f"{used[it]:8.0f}" for it in PHASES) + f"{sum(used.values()):8.0f}")
    sums = [sum(used[it] for used in found.values()) for it in PHASES]
    lines.append(f"{'all':24}" + "".join(f"{it:8.0f}" for it in (*sums, sum(sums))) + f"   in {wall / 60:.1f} minutes")
    return "\n".join(lines)


def main(command):
    watch, ended, began = Watch(str(os.getpid())), threading.Event(), time.monotonic()

    def watching():
        while not ended.wait(0.5):
            watch.look()

    looking = threading.Thread(target=watching)
    looking.start()
    with subprocess.Popen(command, stdout=subprocess.PIPE, stderr=subprocess.STDOUT, text=True, errors="replace",
                          env={**os.environ, MARK: watch.mark}) as ran:
        for line in ran.stdout:
            print(line, end="", flush=True)
            found = EDITS.match(line)
            if found:
                watch.tried.add(found.group(1))
    ended.set()
    looking.join()
    print(table(watch.seconds(), time.monotonic() - began), flush=True)
    return ran.returncode


if __name__ == "__main__":
    sys.exit(main(sys.argv[1:]))
