"""Crates proved and built by `rt`, which takes some minutes the first time: a line shows how far it is, and what rt says goes to a file."""

import concurrent.futures
import os
import shutil
import subprocess
import sys
import time

import crates
from crates import ROOT
from outlines import Unusable

LOG = ROOT / "target/log/first-build"


def clock(seconds):
    return f"{int(seconds) // 60}:{int(seconds) % 60:02}"


def show(command, words, last):
    """On a terminal each line takes the place of the one before."""
    if sys.stderr.isatty():
        print(f"\r\033[K{command}: {words}", end="\n" if last else "", file=sys.stderr, flush=True)
    else:
        print(f"{command}: {words}", file=sys.stderr, flush=True)


def build(name):
    """Proves and builds one crate, over those that it stands on; what rt says, and its status. A program is run once, on no input."""
    folder = ROOT / "crates" / name
    verb = "run" if (folder / "src/main.rt").is_file() else "lib"
    ran = subprocess.run(["rt", verb], cwd=folder, stdin=subprocess.DEVNULL, stdout=subprocess.PIPE, stderr=subprocess.STDOUT, text=True)
    return ran.stdout, ran.returncode


def in_turn(wanted, on):
    """Builds the crates wanted, those that wait for no other side by side, and gives each with what it came to; after one that fails it begins no other."""
    done, running, failed = set(), {}, False
    with concurrent.futures.ThreadPoolExecutor(os.cpu_count()) as pool:
        while running or not failed and len(done) < len(wanted):
            for name in [] if failed else sorted(wanted - done - set(running.values())):
                if not set(on[name]) & wanted - done:
                    running[pool.submit(build, name)] = name
            for ended in concurrent.futures.wait(running, return_when=concurrent.futures.FIRST_COMPLETED).done:
                name, (said, status) = running.pop(ended), ended.result()
                failed = failed or status != 0
                done.add(name)
                yield name, said, status


def prove(command, what, names):
    """Proves the crates named and all that they stand on, for a command that wants `what` built; Unusable where that can't be done."""
    if not shutil.which("rt"):
        raise Unusable(f"the {what} isn't built, and there is no rt here to prove and build it")
    print(f"{command}: the {what} isn't built from this source yet: it is proved first, with all that it stands on. What rt says goes to {LOG}", file=sys.stderr)
    LOG.parent.mkdir(parents=True, exist_ok=True)
    on = crates.dependencies()
    wanted = {reached for name in names for reached in crates.reached(name, on)}
    began, count = time.monotonic(), 0
    with LOG.open("w") as log:
        for name, said, status in in_turn(wanted, on):
            log.write(f"{name}:\n{said}")
            log.flush()
            count += not status
            if not status:
                show(command, f"{count} of {len(wanted)} crates, {clock(time.monotonic() - began)}", count == len(wanted))
    if count < len(wanted):
        show(command, f"stopped at {count} of {len(wanted)} crates, {clock(time.monotonic() - began)}", True)
        raise Unusable(f"the {what} can't be built: {LOG} says why")
