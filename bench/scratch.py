"""What edits.py, gate.py and dear.py share: the crates of this repository, scratch clones of it, and the processor seconds of a process."""
import os
import shutil
import subprocess

ROOT = os.path.dirname(os.path.dirname(os.path.abspath(__file__)))
TICKS = os.sysconf("SC_CLK_TCK")


def crates(folder=ROOT):
    """The crates that crates.txt lists, in its order (lowest first), each with those of this repository that it stands on."""
    lines = {}
    with open(f"{folder}/crates.txt", encoding="utf-8") as file:
        for line in file:
            left, colon, right = line.partition("#")[0].partition(":")
            if colon:
                lines[left.split()[0]] = right.split()
    return {name: [below for below in words if below in lines] for name, words in lines.items()}


def below(name, known):
    """The crates that a crate stands on, straight or through another."""
    return {it for direct in known[name] for it in {direct, *below(direct, known)}}


def named(names, known):
    """The crates of these names in the order of crates.txt, or all of them where no name is given."""
    unknown = [name for name in names if name not in known]
    if unknown:
        raise SystemExit(f"crates.txt lists no {', '.join(unknown)}")
    return [name for name in known if not names or name in names]


def clone(folder, log=print):
    """Clones what this checkout has committed into a folder that isn't there yet, and answers the commit."""
    git = ["git", "-C", ROOT]
    if subprocess.run([*git, "status", "--porcelain"], stdout=subprocess.PIPE, check=True).stdout:
        log("note: what isn't committed isn't in the clone")
    subprocess.run(["git", "clone", "-q", ROOT, folder], check=True)
    return subprocess.run([*git, "rev-parse", "--short", "HEAD"], stdout=subprocess.PIPE, check=True, text=True).stdout.strip()


def take_over(finished, folder, names):
    """Copies the libraries that a clone has built. `rt` builds one anew where what it was made from differs."""
    for name in names:
        built = f"{finished}/crates/{name}/out/rlib"
        if os.path.isdir(built):
            shutil.copytree(built, f"{folder}/crates/{name}/out/rlib", symlinks=True)


def process(pid):
    """A process as (its parent, when it began, the processor seconds that it used itself), or None where it has ended."""
    try:
        with open(f"/proc/{pid}/stat", encoding="utf-8", errors="replace") as file:
            text = file.read()
    except OSError:
        return None
    # The second field is the name in brackets, which may hold blanks and brackets itself.
    fields = text[text.rindex(")") + 2 :].split()
    return int(fields[1]), int(fields[19]), (int(fields[11]) + int(fields[12])) / TICKS


def processes():
    """Every process of the machine, by its number."""
    found = ((int(name), process(name)) for name in os.listdir("/proc") if name.isdigit())
    return {pid: it for pid, it in found if it}


def command(pid):
    """The words that a process was started with, none where it has ended."""
    try:
        with open(f"/proc/{pid}/cmdline", encoding="utf-8", errors="replace") as file:
            return file.read().split("\0")[:-1]
    except OSError:
        return []


def word_after(flag, words):
    """The word behind a flag, if both are there."""
    at = words.index(flag) if flag in words else len(words)
    return words[at + 1] if at + 1 < len(words) else None
