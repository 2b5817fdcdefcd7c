#!/usr/bin/env python3
"""Lists the functions of a crate whose proofs take the most time: runs `rt check` on it from nothing, in a clone of what
is committed, and reads how many processor seconds the prover has used each time that it says `checked F, n of N`.

The seconds between two such lines stand at the later one. So the first holds the load of all libraries too, and is
printed apart; and the first caller of a helper may hold what the helper's contract brings along. Read them by groups,
and repeat a run before a decision: they differ by 10 to 20 %.

The libraries below the crate are built first, which is not counted: nothing for the lowest, some 25 processor minutes
for the highest, or nothing with --out-of.
"""
import argparse
import os
import re
import signal
import subprocess
import sys
import tempfile

import scratch

CHECKED = re.compile(r"checked (\S+), (\d+) of (\d+)")


def descendants(pid, table):
    """The processes that stand below this one."""
    found = {pid}
    while True:
        more = {it for it, (parent, _, _) in table.items() if parent in found and it not in found}
        if not more:
            return found - {pid}
        found |= more


def prover(pid, name):
    """The process below this one that proves the crate."""
    for it in descendants(pid, scratch.processes()):
        words = scratch.command(it)
        if "check" in words and scratch.word_after("--crate-name", words) == name:
            return it
    return None


class Stamps:
    """The lines of one check, each with the prover's processor seconds since the line before it."""

    def __init__(self, name):
        self.name, self.pid, self.before = name, None, 0.0
        self.lines, self.count = [], 0

    def take(self, line, top):
        said = CHECKED.match(line)
        if not said:
            return
        self.pid = self.pid or prover(top, self.name)
        now = scratch.process(self.pid) if self.pid else None
        # The last line may come when the prover has just ended.
        seconds = now[2] if now else self.before
        self.lines.append((seconds - self.before, said[1]))
        self.before, self.count = seconds, int(said[3])


def check(name, folder, log, tests):
    """Runs the check and answers its stamps and its status."""
    words = ["rt", "check", "--progress", "--jobs", "1", *(["--test"] if tests else [])]
    stamps = Stamps(name)
    with open(log, "a", encoding="utf-8") as out:
        how = {"stdin": subprocess.DEVNULL, "stdout": subprocess.PIPE, "stderr": subprocess.STDOUT}
        run = subprocess.Popen(words, cwd=folder, text=True, errors="replace", **how)
        try:
            for line in run.stdout:
                stamps.take(line, run.pid)
                out.write(line)
        except KeyboardInterrupt:
            run.terminate()
            print("interrupted: what was checked so far")
    return stamps, run.wait()


def report(stamps, most):
    lines = stamps.lines
    if not lines:
        return
    (load, first), further = lines[0], lines[1:]
    print(f"{stamps.name}: {stamps.before:.0f} processor seconds to the last function")
    print(f"{load:8.1f}  load of the libraries, and {first}")
    print(f"{sum(it[0] for it in further):8.1f}  {len(further)} of {stamps.count - 1} further functions, of which the dearest:")
    for seconds, function in sorted(further, reverse=True)[:most]:
        print(f"{seconds:8.1f}  {function}")


def main():
    sys.stdout.reconfigure(line_buffering=True)
    signal.signal(signal.SIGTERM, signal.default_int_handler)
    words = argparse.ArgumentParser(description=__doc__, formatter_class=argparse.RawDescriptionHelpFormatter)
    words.add_argument("names", nargs="+", metavar="NAME", help="the crates, one after another")
    words.add_argument("--most", type=int, default=25, metavar="N", help="how many functions are listed (25)")
    words.add_argument("--tests", action="store_true", help="with the crate's tests")
    words.add_argument("--out-of", metavar="FOLDER", help="takes the libraries that this clone has built, in place of building them")
    given = words.parse_args()
    known = scratch.crates()
    worst = 0
    with tempfile.TemporaryDirectory(prefix="payhost-dear-") as room:
        folder, log = f"{room}/payhost", f"{room}/check.log"
        print(f"functions of {scratch.clone(folder)}")
        for name in scratch.named(given.names, known):
            if given.out_of:
                # A crate of an earlier name may stand below this one, and is built by then.
                built = [it for it in scratch.below(name, known) if not os.path.isdir(f"{folder}/crates/{it}/out/rlib")]
                scratch.take_over(given.out_of, folder, built)
            stamps, status = check(name, f"{folder}/crates/{name}", log, given.tests)
            report(stamps, given.most)
            if status:
                with open(log, encoding="utf-8") as file:
                    print("".join(file.readlines()[-12:]))
                print(f"{name} is not proved (status {status})")
            worst = worst or status
    return 1 if worst else 0


if __name__ == "__main__":
    sys.exit(main())
