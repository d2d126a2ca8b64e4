#!/usr/bin/env python3
"""Runs each module of a tutorial through the built program: a block fenced as ```ur must give the page of the ```html block
that stands behind it."""
import re
import subprocess
import sys


def main(program, path):
    with open(path, encoding="utf-8") as it:
        blocks = re.findall(r"^```(ur|html)\n(.*?)^```$", it.read(), re.MULTILINE | re.DOTALL)
    done, failed = 0, 0
    for (kind, module), (behind, wanted) in zip(blocks, blocks[1:] + [("", "")]):
        if kind != "ur":
            continue
        done += 1
        ran = subprocess.run([program, "page"], input=module.encode(), capture_output=True, timeout=60)
        wrote = ran.stdout.decode("utf-8", "replace")
        if behind != "html" or ran.returncode or wrote != wanted[:-1]:
            failed += 1
            print(f"block {done} of {path}: status {ran.returncode}, wrote {wrote[:600]!r}")
    if not done:
        failed = 1
        print(f"no module stands in {path}")
    print(f"{done - min(failed, done)} pages written, {failed} not")
    return 1 if failed else 0


if __name__ == "__main__":
    sys.exit(main(*sys.argv[1:]))
