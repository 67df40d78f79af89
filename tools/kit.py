#!/usr/bin/env python3
"""What the toolchain proved, for the steps of the gate behind `rt ci`.

usage: tools/kit.py NAME      at the top: builds the static library NAME, crates/NAME/out/libNAME.a

`rt ci` leaves each library in crates/NAME/out/rlib, for the crates above it, and no static library. PROVED_HERE in
the environment, set by .ci/run, says that `rt ci` has just proved all that lies there, as in a clean clone: then
nothing below NAME is proved once more. Else, as where `rt check` kept work in out/, `rt lib` brings the libraries up
to date first."""
import functools
import os
import subprocess
import sys


def is_proved_here():
    return bool(os.environ.get("PROVED_HERE"))


@functools.lru_cache(maxsize=None)
def folder():
    """The toolchain's folder, in which the page that `rt doc` names lies."""
    return os.path.dirname(subprocess.run(["rt", "doc"], check=True, capture_output=True, text=True).stdout.strip())


@functools.lru_cache(maxsize=None)
def listed():
    """The crates of crates.txt: for each name, whether it is a static library, and what it names."""
    found = {}
    with open("crates.txt", encoding="utf-8") as file:
        for line in file:
            head, _, uses = line.partition("#")[0].partition(":")
            if head.strip():
                found[head.split()[0]] = ("staticlib" in head.split(), uses.replace(",", " ").split())
    return found


def below(name):
    """The repository's libraries below a crate, each behind those that it names itself."""
    found = []
    for used in listed()[name][1]:
        if used in listed():
            found += [it for it in [*below(used), used] if it not in found]
    return found


def words(name):
    """What rattle is told of a crate, in whose folder, or in a copy of which, it runs."""
    top, kit = os.getcwd(), folder()
    is_static, uses = listed()[name]
    root = "main" if os.path.isfile(f"crates/{name}/src/main.rt") else "lib"
    found = ["--crate-name", name, f"src/{root}.rt", "--extern", f"std={kit}/rlibs/std.rlib"]
    for it in uses:
        place = f"{top}/crates/{it}/out/rlib" if it in listed() else f"{kit}/rlibs"
        found += ["--extern", f"{it}={place}/{it}.rlib"]
    for place in [f"{kit}/rlibs", *(f"{top}/crates/{it}/out/rlib" for it in below(name))]:
        found += ["-L", f"dependency={place}"]
    found += ["--antt-project", f"{kit}/rattle/logic/antt-project.json", "--logic-built", f"{kit}/logic_built"]
    return found + ["--links", f"{name}="] + ["--crate-type", "staticlib"] * is_static


def quietly(command, where):
    """Runs a command, whose output matters only where it fails."""
    how = {"stdin": subprocess.DEVNULL, "stdout": subprocess.PIPE, "stderr": subprocess.STDOUT, "errors": "replace"}
    ran = subprocess.run(command, cwd=where, **how)
    if ran.returncode:
        sys.exit(f"{ran.stdout}{where}: {' '.join(command[:2])} failed")


def bring_up_to_date(names):
    """Has the libraries below these crates stand in out/ as their files are now."""
    for it in dict.fromkeys(library for name in names for library in below(name)):
        quietly(["rt", "lib"], f"crates/{it}")


def main(name):
    if not is_proved_here():
        return quietly(["rt", "lib"], f"crates/{name}")
    made = ["--jobs", "1", "--toolchain", f"{folder()}/toolchain", "--backend", "llvm", "-o", f"out/lib{name}.a"]
    return quietly([f"{folder()}/bin/rattle", "build", *words(name), *made], f"crates/{name}")


if __name__ == "__main__":
    sys.exit(main(sys.argv[1]))
