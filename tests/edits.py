#!/usr/bin/env python3
"""Each wrong program of the must-fail edits is refused at the places that its edit names.

usage: tests/edits.py [--anew] [--logs FOLDER] [CRATE | CRATE/EDIT ..]      at the top; with no names every edit

An edit may try a wrong version of several functions of a crate at once, since each is proved from the contracts of
the others alone. `rt ci` finds that the crate is not proved with the edit; here each wrong program of it is looked at.
A line `wrong: NAME` begins each, and each names where it must be refused:
  at: MODULE::FUNCTION    a fact that the function's own proof needs
  at: FILE LAW            a law, or a computed example
The edited crate is checked once, on a copy, over what a check of the crate as it stands proved. At each place there
must be an error that is no consequence of another one, and that says more than that a proof names what the code no
longer has. --logs keeps what each check said, as FOLDER/CRATE.EDIT. For the libraries below see tools/kit.py.

An edit whose wrong programs were all refused so is not tried again on this machine until something that its check
reads has changed: the toolchain, the edit, the crate, a library below it, or this script. --anew tries all."""
import concurrent.futures
import functools
import glob
import hashlib
import os
import re
import shutil
import signal
import subprocess
import sys
import tempfile

sys.path.insert(0, os.path.join(os.path.dirname(os.path.abspath(__file__)), "../tools"))
import kit

# An error of a file: where it stands, the declaration (none where antt names none), and what is said.
ERROR = re.compile(r"(?:\./)?(\S+?):\d+:\d+: error: (?:`([^`]*)`: )?(.*)")
# The proof names what the code no longer has.
MISFIT = re.compile(r"is not in scope|has no field|has no `|was not admitted")
# The sums of all that the edits that were refused in full stand on.
KEPT = os.path.join(os.environ.get("XDG_CACHE_HOME") or os.path.expanduser("~/.cache"), "lanes-must-fail")
# The parts of a crate that a check reads.
PARTS = ("src", "specs", "proofs")
# What a check may take of memory, in bytes.
ROOM = 2_500_000_000


def read(path):
    with open(path, encoding="utf-8") as file:
        return file.read()


@functools.lru_cache(maxsize=None)
def version():
    return subprocess.run(["rt", "version"], check=True, capture_output=True, text=True).stdout


@functools.lru_cache(maxsize=None)
def sum_of(file, size, changed):
    return hashlib.sha256(read(file).encode()).hexdigest()


@functools.lru_cache(maxsize=None)
def files_of(crate):
    return [it for part in PARTS for it in sorted(glob.glob(f"crates/{crate}/{part}/**/*.*", recursive=True))]


def stamp_of(edit):
    """A sum of all that the check of an edit reads."""
    files = ["tests/edits.py", "tools/kit.py", "crates.txt", edit.path]
    for crate in [*kit.below(edit.crate), edit.crate]:
        files += files_of(crate)
    found = hashlib.sha256(version().encode())
    for file in files:
        if os.path.isfile(file):
            stat = os.stat(file)
            found.update(f"{file} {sum_of(file, stat.st_size, stat.st_mtime_ns)}\n".encode())
    return found.hexdigest()


class Edit:
    """A file crates/CRATE/must-fail/NAME.edit: the texts that it changes, and the places of its wrong programs."""

    def __init__(self, path):
        self.path, self.crate, self.name = path, path.split("/")[1], os.path.basename(path)[: -len(".edit")]
        self.texts, self.programs, self.wrong = {}, [], []
        file = old = None
        for line in read(path).split("\n"):
            if line.startswith("wrong: ") or not self.programs:
                self.programs.append([])
            key, _, text = line.partition(": ")
            if key == "file":
                file = text.strip()
                if file not in self.texts:
                    self.texts[file] = read(f"crates/{self.crate}/{file}")
            elif key == "old":
                old = text
            elif line.startswith("new:"):
                if self.texts[file].count(old) != 1:
                    self.wrong.append(f"cannot be applied: in {file} {self.texts[file].count(old)} times: {old}")
                self.texts[file] = self.texts[file].replace(old, text)
            elif key == "at":
                self.programs[-1].append(text.strip())
        if not all(self.programs):
            self.wrong.append("a wrong program names no place")

    def look(self, status, said):
        """Looks for each place in what the check of the edited crate said."""
        lines = said.rstrip().split("\n")
        if status != 1 or not lines[-1].startswith("logic=not-proved"):
            what = "the crate is still proved" if status == 0 else f"its check ended with status {status}"
            self.wrong.append("\n    ".join([what, *(it[:300] for it in lines[:9] if status)]))
            return
        errors = [found.groups() for found in map(ERROR.match, lines) if found]
        for place in (place for places in self.programs for place in places):
            file, _, law = place.partition(" ")
            told, own = f"fn {self.crate}::{place.replace('+', '')}: ", f"proofs/{place.replace('::', '/')}/"
            if law:
                there = [text for path, name, text in errors if (path, name) == (file, law)]
                open_goals = []
            else:
                # (a goal that only a declaration of it proves is open too where the file no longer names it)
                there = [text for path, name, text in errors if path.startswith(own) and name]
                open_goals = [it for it in lines if it.startswith(told) and "`search` did not prove" in it]
                open_goals = [] if any(map(MISFIT.search, there)) else open_goals
            if not open_goals and all(map(MISFIT.search, there)):
                there += [it for it in lines if it.startswith(told)]
                self.wrong.append("\n    ".join([f"not refused at {place}", *(it[:300] for it in there)]))


def check(crate, texts, kept):
    """Checks a copy of the crate with these texts in place of its own, over what the folder kept holds."""
    with tempfile.TemporaryDirectory() as copy:
        for part in PARTS:
            if os.path.isdir(f"crates/{crate}/{part}"):
                shutil.copytree(f"crates/{crate}/{part}", f"{copy}/{part}")
        for path, text in texts.items():
            with open(f"{copy}/{path}", "w", encoding="utf-8") as file:
                file.write(text)
        command = [f"{kit.folder()}/bin/rattle", "check", *kit.words(crate), "--jobs", "1", "--incremental", kept]
        how = {"cwd": copy, "stdin": subprocess.DEVNULL, "stdout": subprocess.PIPE, "stderr": subprocess.STDOUT}
        for _ in range(2):
            ran = subprocess.run(command, errors="replace", **how)
            if ran.returncode != -signal.SIGKILL:
                # (else for memory, most likely: once more)
                break
        return ran.returncode, ran.stdout


def processes():
    """How many checks run side by side: one a processor, as many as memory holds."""
    free = 1024 * int(re.search(r"MemAvailable:\s+(\d+)", read("/proc/meminfo"))[1])
    return max(1, min(len(os.sched_getaffinity(0)), free // ROOM))


def asked(words):
    """What the words of the call ask for: whether all is tried, the folder for logs, and the names."""
    anew = words[:1] == ["--anew"]
    words = words[anew:]
    logs = words[1] if words[:1] == ["--logs"] else None
    return anew, logs, words[2:] if logs else words


def main(words):
    anew, logs, names = asked(words)
    edits = [Edit(path) for path in sorted(glob.glob("crates/*/must-fail/*.edit"))]
    edits = [it for it in edits if not names or it.crate in names or f"{it.crate}/{it.name}" in names]
    stamps = {it.path: stamp_of(it) for it in edits}
    old = [it for it in edits if not anew and not it.wrong and os.path.exists(f"{KEPT}/{stamps[it.path]}")]
    crates = {it.crate: [other for other in edits if other.crate == it.crate and other not in old] for it in edits}
    crates = {crate: tried for crate, tried in crates.items() if tried}
    if crates and not kit.is_proved_here():
        kit.bring_up_to_date(crates)
    room = tempfile.mkdtemp()

    def seed(crate):
        # begun with what an earlier check of the crate kept, where there is one: the check looks what of it holds
        kept = f"crates/{crate}/out/incremental"
        if os.path.isdir(kept):
            shutil.copytree(kept, f"{room}/{crate}")
        else:
            os.mkdir(f"{room}/{crate}")
        return check(crate, {}, f"{room}/{crate}")

    def attempt(edit):
        over = f"{room}/{edit.crate}.{edit.name}"
        shutil.copytree(f"{room}/{edit.crate}", over)
        status, said = check(edit.crate, edit.texts, over)
        shutil.rmtree(over)
        if logs:
            with open(f"{logs}/{edit.crate}.{edit.name}", "w", encoding="utf-8") as file:
                file.write(said)
        edit.look(status, said)
        if not edit.wrong and stamp_of(edit) == stamps[edit.path]:
            os.makedirs(KEPT, exist_ok=True)
            with open(f"{KEPT}/{stamps[edit.path]}", "w", encoding="utf-8") as file:
                file.write(edit.path + "\n")

    try:
        with concurrent.futures.ThreadPoolExecutor(processes()) as pool:
            # first those crates on which the most edits wait
            order = sorted(crates, key=lambda it: -len(crates[it]))
            seeds = {pool.submit(seed, it): it for it in order}
            tried = []
            for ended in concurrent.futures.as_completed(seeds):
                status, said = ended.result()
                for edit in crates[seeds[ended]]:
                    if status:
                        edit.wrong.append(f"{edit.crate} is not proved as it stands: {said[-900:]}")
                    elif not edit.wrong:
                        tried.append(pool.submit(attempt, edit))
            for it in tried:
                it.result()
    finally:
        shutil.rmtree(room, ignore_errors=True)
    for edit in edits:
        for why in edit.wrong:
            print(f"{edit.path}: {why}")
    if any(edit.wrong for edit in edits):
        return 1
    told = f"; {len(old)} of the {len(edits)} edits were tried by an earlier run on this machine" if old else ""
    print(f"edits: {sum(len(it.programs) for it in edits)} wrong programs, each refused at a fact of its own{told}")
    return 0


if __name__ == "__main__":
    sys.exit(main(sys.argv[1:]))
