"""Runs commands several times over a text on standard input, and tells the best time, the throughput and the peak memory.

Peak memory comes from GNU time (Debian's package `time`), in a run of its own; without it that column is empty.
"""
import os
import shutil
import subprocess
import sys
import tempfile
import time


def seconds_of(words, text):
    """How long one run takes, from before the program starts until it has ended."""
    with open(text, "rb") as given, open(os.devnull, "wb") as out:
        started = time.perf_counter()
        ended = subprocess.run(words, stdin=given, stdout=out)
        seconds = time.perf_counter() - started
    if ended.returncode:
        sys.exit(f"{' '.join(words)} ended with status {ended.returncode}")
    return seconds


def peak_of(words, text):
    """The peak of one run in KiB, or None where GNU time isn't there."""
    if not shutil.which("time"):
        return None
    with open(text, "rb") as given, open(os.devnull, "wb") as out, tempfile.NamedTemporaryFile("r") as told:
        subprocess.run([shutil.which("time"), "-f", "%M", "-o", told.name, *words], stdin=given, stdout=out)
        return int(told.read().split()[-1])


def table(rows, text, times=15):
    """Prints a line for each named command over the text."""
    size = os.path.getsize(text)
    print(f"{'command':32} {'best ms':>9} {'MB/s':>9} {'peak MiB':>9} {'bytes/byte':>11}")
    for name, words in rows:
        seconds, peak = min(seconds_of(words, text) for _ in range(times)), peak_of(words, text)
        memory = f"{peak / 1024:9.1f} {peak * 1024 / max(size, 1):11.1f}" if peak else f"{'':9} {'':11}"
        print(f"{name:32} {seconds * 1e3:9.2f} {size / seconds / 1e6:9.1f} {memory}")


ESCAPE = [sys.executable, "-c", "import html, sys; sys.stdout.write(html.escape(sys.stdin.read()))"]
EMPTY = [sys.executable, "-c", "pass"]
CAT = ["cat"]
