"""Runs scripts of checks/, each a part, over one built program, and prints a line of each with its
seconds; what a part printed is shown only where it failed. checks/quick and checks/all use it."""

import concurrent.futures
import os
import subprocess
import sys
import time

TOP = os.path.dirname(os.path.dirname(os.path.abspath(__file__)))
CHECKS = os.path.join(TOP, "checks")


def run_part(words):
    """Runs a part and tells of it; gives whether it passed."""
    begun = time.monotonic()
    ended = subprocess.run(
        [os.path.join(CHECKS, words[0])] + words[1:],
        stdin=subprocess.DEVNULL,
        stdout=subprocess.PIPE,
        stderr=subprocess.STDOUT,
    )
    seconds, is_right = time.monotonic() - begun, ended.returncode == 0
    name = " ".join(word for word in words if not os.path.isabs(word))
    text = "%-36s %6.1f s  %s\n" % (name, seconds, "passed" if is_right else "FAILED")
    shown = b"" if is_right else ended.stdout
    sys.stdout.buffer.write(text.encode() + shown)
    sys.stdout.buffer.flush()
    return is_right


def run_parts(small, large):
    """Runs the small parts, of one processor each, side by side, and then the large ones, which
    keep all processors busy; ends with 1 if any failed."""
    begun = time.monotonic()
    with concurrent.futures.ThreadPoolExecutor(len(small)) as pool:
        passed = list(pool.map(run_part, small))
    passed += [run_part(words) for words in large]
    print("%d of %d passed, %.1f s" % (sum(passed), len(passed), time.monotonic() - begun))
    sys.exit(0 if all(passed) else 1)
