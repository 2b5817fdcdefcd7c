#!/usr/bin/env python3
"""Measures the gate: runs `rt ci`, or the command behind --, and prints the processor seconds of each crate's proof,
tests, edits and builds.

It works on what is committed, in a clone in a temporary folder, or in the folder that --in names. Twice a second it
reads from /proc what each process of that command has used, so what a process does in its last half second is lost:
"seen" says how much of the whole (which the system counts exactly) was seen. Other work on the machine is not
counted, but it makes each process somewhat dearer, by 10 to 40 % where the processors are full.

    proof    the crate proved from nothing, and for a library its build
    tests    the crate proved once more with its tests, and their build
    edits    the edits of must-fail, and the unchanged crate once more; runs: how many checks that were,
             first: seconds of the first of them, each: of the further ones in the mean
    builds   what two compilers make of a proved program
    rest     rt itself, layout, running the tests and programs

A gate that takes 400 processor minutes takes some two hours on four processors. An interrupt ends the command and
prints what was measured so far. The status is the command's.
"""
import argparse
import contextlib
import json
import os
import signal
import subprocess
import sys
import tempfile
import time

import scratch

KINDS = ("proof", "tests", "edits", "builds")


def room_of(pid):
    """The name of the folder that a process works in."""
    try:
        return os.path.basename(os.readlink(f"/proc/{pid}/cwd"))
    except OSError:
        return ""


class Used:
    """A process of the command, what it works at, and the processor seconds that it was last seen to have used."""

    def __init__(self, pid, parent):
        self.pid, self.parent, self.seconds = pid, parent, 0.0
        self.name = self.kind = None
        self.room = ""

    def look(self):
        """Finds out what the process works at: a process begins as a copy of its parent, and has its own words only later."""
        words = scratch.command(self.pid)
        name = scratch.word_after("--crate-name", words)
        if not name:
            return
        self.name, self.room = name, room_of(self.pid)
        if self.room.startswith("rt-edit-"):
            self.kind = "edits"
        elif "--crate-checked" in words:
            self.kind = "builds"
        else:
            self.kind = "tests" if "--test" in words else "proof"

    def work(self):
        """The crate and kind of the process, or of the nearest above it that has one: a compiler is started by what proves."""
        it = self
        while it.parent and not it.name:
            it = it.parent
        return it


class Meter:
    """The processes that the command has started, with those that have ended."""

    def __init__(self, pid, known):
        self.known = known
        self.first = Used(pid, None)
        self.began = time.time()
        self.all, self.live = [self.first], {}

    def sample(self):
        table = scratch.processes()
        if not self.live and self.first.pid in table:
            self.live[self.first.pid, table[self.first.pid][1]] = self.first
        # A number can be given again to another process, which then began at another time.
        self.live = {key: it for key, it in self.live.items() if key[0] in table and table[key[0]][1] == key[1]}
        by_pid = {it.pid: it for it in self.live.values()}
        is_new = True
        while is_new:
            is_new = False
            for pid, (parent, began, _) in table.items():
                if pid not in by_pid and parent in by_pid:
                    by_pid[pid] = self.live[pid, began] = Used(pid, by_pid[parent])
                    self.all.append(by_pid[pid])
                    is_new = True
        for it in self.live.values():
            it.seconds = table[it.pid][2]
            if not it.name and it is not self.first:
                it.look()

    def sums(self):
        """Processor seconds by crate and kind, the checks of each crate's edits in their order, and the rest."""
        crates = {name: {**dict.fromkeys(KINDS, 0.0), "edit_runs": []} for name in self.known}
        rest, rooms = 0.0, {}
        for used in self.all:
            it = used.work()
            if not it.name:
                rest += used.seconds
                continue
            line = crates.setdefault(it.name, {**dict.fromkeys(KINDS, 0.0), "edit_runs": []})
            line[it.kind] += used.seconds
            if it.kind == "edits":
                if it.room not in rooms:
                    rooms[it.room] = len(line["edit_runs"])
                    line["edit_runs"].append(0.0)
                line["edit_runs"][rooms[it.room]] += used.seconds
        return crates, rest


def longest_chain(known, crates):
    """The crates, each of which stands on the one before it, whose proofs take the most seconds together, and these seconds."""
    best = {}
    for name in known:
        below = max((best[it] for it in known[name] if it in best), key=lambda it: it[0], default=(0.0, []))
        best[name] = (below[0] + crates[name]["proof"], [*below[1], name])
    return max(best.values(), key=lambda it: it[0], default=(0.0, []))


def figures(meter, run, whole):
    """All that was measured, as --json writes it: processor seconds, but for those by the clock."""
    crates, rest = meter.sums()
    chain_seconds, chain = longest_chain(meter.known, crates)
    seen = rest + sum(line[kind] for line in crates.values() for kind in KINDS)
    return {
        **run,
        "clock_seconds": round(time.time() - meter.began, 1),
        "seconds": None if whole is None else round(whole, 1),
        "seen_seconds": round(seen, 1),
        "rest_seconds": round(rest, 1),
        "kinds": {kind: round(sum(line[kind] for line in crates.values()), 1) for kind in KINDS},
        "chain": chain,
        "chain_seconds": round(chain_seconds, 1),
        "crates": {
            name: {
                **{kind: round(line[kind], 1) for kind in KINDS},
                "edit_runs": [round(seconds, 1) for seconds in line["edit_runs"]],
            }
            for name, line in crates.items()
            if any(line[kind] for kind in KINDS)
        },
    }


def printed(it):
    """The table that is printed at the end."""
    words = ("proof", "tests", "edits", "runs", "first", "each", "builds", "all")
    lines = [f"{'crate':14}" + "".join(f"{word:>8}" for word in words)]
    for name, line in it["crates"].items():
        runs = line["edit_runs"]
        first, further = runs[0] if runs else 0, runs[1:]
        each = sum(further) / len(further) if further else 0
        cells = [line["proof"], line["tests"], line["edits"], len(runs), first, each, line["builds"]]
        whole = sum(line[kind] for kind in KINDS)
        lines.append(f"{name:14}" + "".join(f"{cell:8.0f}" for cell in [*cells, whole]))
    kinds = it["kinds"]
    for unit, size, digits in (("seconds", 1, 0), ("minutes", 60, 1)):
        cells = [f"{seconds / size:8.{digits}f}" for seconds in [*kinds.values(), sum(kinds.values())]]
        lines.append(f"{unit:14}" + "".join([*cells[:3], " " * 24, *cells[3:]]))
    of = f" of {it['seconds'] / 60:.1f}" if it["seconds"] else ""
    seen, rest = it["seen_seconds"] / 60, it["rest_seconds"] / 60
    lines.append(f"seen in all: {seen:.1f}{of} processor minutes, of which the rest {rest:.1f}")
    lines.append(f"the longest chain of proofs: {it['chain_seconds'] / 60:.1f} minutes, {' < '.join(it['chain'])}")
    machine = f"{it['processors']} processors, load at the start {it['load']}"
    lines.append(f"by the clock: {it['clock_seconds'] / 60:.1f} minutes ({machine})")
    return "\n".join(lines)


def watched(words, folder, log, known, run, json_file):
    """Runs the command to its end, or until an interrupt, and answers its status and the figures."""
    with open(log, "wb") as out:
        child = subprocess.Popen(words, cwd=folder, stdin=subprocess.DEVNULL, stdout=out, stderr=subprocess.STDOUT)
    meter, saved, status, whole = Meter(child.pid, known), time.time(), None, None
    while status is None:
        try:
            meter.sample()
            ended, how, usage = os.wait4(child.pid, os.WNOHANG)
            if ended:
                # The system's own count for the command and all that it waited for.
                whole = usage.ru_utime + usage.ru_stime
                status = os.WEXITSTATUS(how) if os.WIFEXITED(how) else 128 + os.WTERMSIG(how)
                child.returncode = status
            elif json_file and time.time() - saved > 60:
                write(json_file, figures(meter, run, None))
                saved = time.time()
            else:
                time.sleep(0.5)
        except KeyboardInterrupt:
            print("interrupted: the command is ended", file=sys.stderr)
            child.terminate()
    return status, figures(meter, run, whole)


def write(file, it):
    with open(file, "w", encoding="utf-8") as out:
        json.dump(it, out, indent=1)
        out.write("\n")


def last_line(log):
    with open(log, encoding="utf-8", errors="replace") as file:
        return ([""] + [line for line in file.read().split("\n") if line])[-1]


def main():
    sys.stdout.reconfigure(line_buffering=True)
    signal.signal(signal.SIGTERM, signal.default_int_handler)
    words = argparse.ArgumentParser(description=__doc__, formatter_class=argparse.RawDescriptionHelpFormatter)
    words.add_argument("--in", dest="folder", metavar="FOLDER", help="runs in this checkout, as it stands, in place of a clone")
    words.add_argument("--json", metavar="FILE", help="writes the figures there too, and every minute those so far")
    words.add_argument("--log", metavar="FILE", help="where the command's own output goes (gate.log in the temporary folder, then dropped)")
    words.add_argument("command", nargs="*", metavar="COMMAND", help="behind --: the command to measure (rt ci)")
    given = words.parse_args()
    with contextlib.ExitStack() as held:
        room = held.enter_context(tempfile.TemporaryDirectory(prefix="payhost-gate-"))
        folder = given.folder or f"{room}/payhost"
        commit = None if given.folder else scratch.clone(folder)
        log = os.path.abspath(given.log) if given.log else f"{room}/gate.log"
        command = given.command or ["rt", "ci"]
        run = {"command": command, "commit": commit, "processors": os.cpu_count(), "load": "%.1f %.1f %.1f" % os.getloadavg()}
        print(f"{' '.join(command)} in {given.folder or 'a clone of ' + commit}")
        status, it = watched(command, folder, log, scratch.crates(folder), run, given.json)
        it = {**it, "status": status, "last_line": last_line(log)}
    if given.json:
        write(given.json, it)
    print(printed(it))
    print(f"status {status}: {it['last_line']}")
    return status


if __name__ == "__main__":
    sys.exit(main())
