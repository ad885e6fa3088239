"""For the scripts in Python: which crates depend on which, what each is proved from, and the arguments with which the kit's rattle checks or
builds one over the libraries of those below it (`rattle build --help`)."""
import functools
import hashlib
import os
import re
import subprocess
import sys

TOP = os.path.dirname(os.path.dirname(os.path.abspath(__file__)))
PARTS = ("src", "specs", "proofs")


@functools.lru_cache(maxsize=None)
def listed():
    """Returns for each crate of crates.txt whether it is a static library, and what it depends on, including the kit's crates."""
    found = {}
    with open(f"{TOP}/crates.txt", encoding="utf-8") as file:
        for line in file:
            said = re.match(r"([a-z]\w*)([^:]*):(.*)", line)
            if said:
                found[said[1]] = "staticlib" in said[2].split(), said[3].split()
    return found


def uses(crate):
    """Returns the crates of the repository on which the crate depends directly."""
    return [it for it in listed()[crate][1] if it in listed()]


def below(crate):
    """Returns the crates on which it depends, each after its own dependencies."""
    found = []
    for use in uses(crate):
        found += [it for it in [*below(use), use] if it not in found]
    return found


@functools.lru_cache(maxsize=None)
def kit():
    """Returns the folder of the kit."""
    try:
        said = subprocess.run(["rt", "doc"], stdout=subprocess.PIPE, stdin=subprocess.DEVNULL, text=True, check=True)
    except (OSError, subprocess.CalledProcessError):
        sys.exit("the command rt of the Rattle kit is not on the PATH")
    return os.path.dirname(said.stdout.strip())


def kind(crate):
    """Returns whether the crate is a `program`, a `staticlib` or a `library`."""
    if os.path.exists(f"{TOP}/crates/{crate}/src/main.rt"):
        return "program"
    return "staticlib" if listed()[crate][0] else "library"


def words(crate, libraries, is_checked=False):
    """Returns rattle's arguments for the crate, to be run in its folder. The crates below are read from libraries/NAME.rlib. If the
    crate is already checked, the logic is not loaded."""
    names = listed()[crate][1]
    found = ["--crate-name", crate, f"src/{'main' if kind(crate) == 'program' else 'lib'}.rt"]
    for name in ["std", *names]:
        found += ["--extern", f"{name}={libraries if name in listed() else f'{kit()}/rlibs'}/{name}.rlib"]
    found += ["-L", f"dependency={kit()}/rlibs", "-L", f"dependency={libraries}", "--links", f"{crate}="]
    found += ["--antt-project", f"{kit()}/rattle/logic/antt-project.json"]
    found += [] if is_checked else ["--logic-built", f"{kit()}/logic_built"]
    return found + ["--crate-type", "staticlib"] * (kind(crate) == "staticlib")


def code(path):
    """Returns the lines of the file that are code, as `code` of tools/building.sh does: neither blank nor only a comment."""
    left_out = re.compile(rb"[ \t]*(--( .*)?)?" if path.endswith(".antt") else rb"[ \t]*(//.*)?")
    with open(path, "rb") as file:
        return [line for line in file.read().split(b"\n") if not left_out.fullmatch(line)]


def sum_of(crate):
    """Returns a checksum of everything that the crate's proof depends on: the code of its files and of the crates below it, and the kit."""
    found = hashlib.sha256()
    with open(f"{kit()}/KIT-ID", "rb") as file:
        found.update(file.read())
    for name in [*below(crate), crate]:
        found.update(repr((name, listed()[name])).encode())
        for part in PARTS:
            for at, folders, files in os.walk(f"{TOP}/crates/{name}/{part}"):
                folders.sort()
                for each in sorted(files):
                    if each.endswith((".rt", ".antt")) and not each.startswith("."):
                        found.update(repr((os.path.relpath(f"{at}/{each}", TOP), code(f"{at}/{each}"))).encode())
    return found.hexdigest()
