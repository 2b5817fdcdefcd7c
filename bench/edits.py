#!/usr/bin/env python3
"""Tries every edit that must fail: those of crates/NAME/must-fail, which the gate tries too, and those of
crates/NAME/more-edits, which it leaves out. Each must be refused by the prover of its crate.

It works on what is committed, in a clone in a temporary folder, where each crate's more-edits are moved beside its
must-fail; `rt must-fail` then tries crate by crate, lowest first. It prints each edit that isn't refused and each BAD
EDIT (one that doesn't apply, compile or read), then a line for the crate, and ends with the counts. The status is 1
where any edit wasn't refused.

How long: a crate's first edit costs a whole check of it, each further one 20 to 45 processor seconds low down and 60
to 130 high up, and in the end the unchanged crate is checked once more. All of them are some four to five processor
hours, of which the libraries, which are built in the clone first, take half an hour; so four to five hours by the
clock with one lane, and with four lanes on four idle processors about an hour and a half. One low crate takes 2 to 12
minutes; each lane wants 2 to 4 GB of memory. With --applies it takes a second and proves nothing.
"""
import argparse
import glob
import os
import re
import shutil
import signal
import subprocess
import sys
import tempfile
import threading
import time

import scratch

FOLDERS = ("must-fail", "more-edits")
# What is read of `rt`: both of its streams, as text.
HOW = {"stdin": subprocess.DEVNULL, "stderr": subprocess.STDOUT, "text": True, "errors": "replace"}
TRIED = re.compile(r"must-fail (\w+)/(\S+)\.edit: (refused|NOT REFUSED|BAD EDIT)(.*)")


def edits_of(folder, name):
    """The edits of a crate as (the folder it stands in, its file), in the order of their names."""
    return [(part, file) for part in FOLDERS for file in sorted(glob.glob(f"{folder}/crates/{name}/{part}/*.edit"))]


def flaw_of(file, crate):
    """Why an edit can't be applied to the crate in this folder. Each old text stands once in its file, after the pairs before it."""
    path, old, texts = None, None, {}
    with open(file, encoding="utf-8") as lines:
        for line in lines.read().split("\n"):
            word, colon, text = line.partition(":")
            text = text[1:] if text.startswith(" ") else text
            if word == "file" and colon:
                path = text.strip()
            elif word == "old" and colon:
                old = text
            elif word == "new" and colon:
                if not path or not old:
                    return "a new text without a file or an old text before it"
                if path not in texts:
                    if not os.path.isfile(f"{crate}/{path}"):
                        return f"there is no {path}"
                    with open(f"{crate}/{path}", encoding="utf-8") as source:
                        texts[path] = source.read()
                count = texts[path].count(old)
                if count != 1:
                    return f"an old text stands {count} times in {path}"
                texts[path] = texts[path].replace(old, text)
                old = None
    return None if texts else "no pair of an old and a new text"


def applies(names):
    """Says of each edit of the working tree that can't be applied why, and counts the rest."""
    flawed, kept, more = 0, 0, 0
    for name in names:
        seen = set()
        for part, file in edits_of(scratch.ROOT, name):
            short = os.path.basename(file)
            flaw = flaw_of(file, f"{scratch.ROOT}/crates/{name}")
            if short in seen:
                flaw = flaw or "must-fail has an edit of this name too"
            seen.add(short)
            if flaw:
                print(f"{name}/{part}/{short}: {flaw}")
                flawed += 1
            kept += part == "must-fail"
            more += part == "more-edits"
    print(f"{kept} edits in must-fail and {more} in more-edits, of which {flawed} can't be applied")
    return 1 if flawed else 0


def move_together(folder, names):
    """Moves the more-edits of these crates into their must-fail, and answers how many edits each then has."""
    counts = {}
    for name in names:
        edits = edits_of(folder, name)
        counts[name] = len(edits)
        for part, file in edits:
            to = f"{folder}/crates/{name}/must-fail/{os.path.basename(file)}"
            if part == "more-edits":
                if os.path.exists(to):
                    raise SystemExit(f"{name} has two edits of the name {os.path.basename(file)}")
                os.makedirs(os.path.dirname(to), exist_ok=True)
                shutil.move(file, to)
    return counts


def below_all(names, known):
    """The crates that these stand on, lowest first."""
    under = {it for name in names for it in scratch.below(name, known)}
    return [name for name in known if name in under]


def cut_down(folder, names, known):
    """Leaves in the clone only these crates and those below them, so that no other is built."""
    wanted = {*names, *below_all(names, known)}
    for name in known:
        if name not in wanted:
            shutil.rmtree(f"{folder}/crates/{name}", ignore_errors=True)
    with open(f"{folder}/crates.txt", encoding="utf-8") as file:
        lines = file.readlines()
    with open(f"{folder}/crates.txt", "w", encoding="utf-8") as file:
        file.writelines(line for line in lines if re.match(r"\w+", line) and re.match(r"\w+", line)[0] in wanted)


class Trial:
    """One run over crates: the queue that the lanes share, and what came out."""

    def __init__(self, counts):
        self.queue = [name for name, count in counts.items() if count]
        self.counts = counts
        self.refused, self.others, self.running = {}, [], []
        self.lock = threading.Lock()

    def lane(self, folder):
        """Tries the next crate of the queue in this clone until none is left."""
        while True:
            with self.lock:
                if not self.queue:
                    return
                name = self.queue.pop(0)
            self.crate(folder, name)

    def crate(self, folder, name):
        began = time.time()
        words = ["rt", "must-fail", name]
        run = subprocess.Popen(words, cwd=folder, **HOW, stdout=subprocess.PIPE)
        self.running.append(run)
        said, seen, refused = [], 0, 0
        for line in run.stdout:
            said = [*said[-11:], line.rstrip("\n")]
            tried = TRIED.search(line)
            if not tried:
                continue
            seen += 1
            refused += tried[3] == "refused"
            if tried[3] != "refused":
                with self.lock:
                    self.others.append(f"{name}/{tried[2]}: {tried[3]}{tried[4]}")
                    print(self.others[-1], flush=True)
        run.wait()
        with self.lock:
            self.refused[name] = refused
            print(f"{name}: {refused} of {self.counts[name]} refused, {time.time() - began:.0f} s by the clock", flush=True)
            # A library that isn't proved, or a run that was cut off: no verdict on the edits that were not reached.
            if seen < self.counts[name]:
                self.others.append(f"{name}: {self.counts[name] - seen} not tried (status {run.returncode})")
                print("\n".join([self.others[-1], *said]), flush=True)

    def stop(self):
        """Ends what still runs, and begins no other crate."""
        self.queue = []
        for run in self.running:
            if run.poll() is None:
                run.terminate()


def tried(names, known, lanes, finished):
    """Tries the edits of these crates, and answers the status."""
    with tempfile.TemporaryDirectory(prefix="payhost-edits-") as room:
        first = f"{room}/1"
        print(f"edits of {scratch.clone(first)}", flush=True)
        if finished:
            scratch.take_over(finished, first, below_all(names, known))
        counts = move_together(first, names)
        trial = Trial(counts)
        lanes = max(1, min(lanes, len(trial.queue)))
        try:
            if lanes > 1:
                # Two `rt must-fail` in one clone would build the same library at once, so each lane has a clone of its own.
                cut_down(first, names, known)
                words = ["rt", "all", "check", "--jobs", str(lanes)]
                built = subprocess.run(words, cwd=first, **HOW, stdout=subprocess.PIPE)
                if built.returncode:
                    print(built.stdout[-3000:])
                    raise SystemExit("the crates themselves aren't proved, so no edit was tried")
            folders = [first]
            for i in range(2, lanes + 1):
                shutil.copytree(first, f"{room}/{i}", symlinks=True)
                folders.append(f"{room}/{i}")
            # A lane that outlives an interrupt may not keep the script alive.
            threads = [threading.Thread(target=trial.lane, args=(it,), daemon=True) for it in folders]
            for it in threads:
                it.start()
            for it in threads:
                it.join()
        except KeyboardInterrupt:
            trial.stop()
            raise SystemExit("cut off")
    print()
    for name, count in counts.items():
        if count:
            print(f"{name:14} {trial.refused[name]:4} of {count:4}")
    whole = sum(counts.values())
    print(f"{'all':14} {sum(trial.refused.values()):4} of {whole:4} refused")
    for it in trial.others:
        print(it)
    return 1 if trial.others else 0


def main():
    sys.stdout.reconfigure(line_buffering=True)
    signal.signal(signal.SIGTERM, signal.default_int_handler)
    words = argparse.ArgumentParser(description=__doc__, formatter_class=argparse.RawDescriptionHelpFormatter)
    words.add_argument("names", nargs="*", metavar="NAME", help="the crates whose edits are tried; none: all")
    words.add_argument("--lanes", type=int, default=1, metavar="N", help="how many crates are tried at once, each in a clone of its own (1)")
    words.add_argument("--out-of", metavar="FOLDER", help="takes the libraries that this clone has built, in place of building them")
    words.add_argument("--applies", action="store_true", help="only says, of the working tree, which edits can't be applied; proves nothing")
    given = words.parse_args()
    known = scratch.crates()
    names = scratch.named(given.names, known)
    return applies(names) if given.applies else tried(names, known, given.lanes, given.out_of)


if __name__ == "__main__":
    sys.exit(main())
