"""Builds a test in Rust for record/explore; include/rust/explore.rs describes its form.

rustc instruments code for a thread sanitizer with -Zsanitizer=thread; the explorer is linked instead of the sanitizer. The crates that the test
needs are compiled in the same way from their sources, so all of their accesses are seen. Rust's std is already compiled: its generic or inline parts are
compiled with the test; of the rest, the functions that wait or lock are replaced by the linker (--wrap):

  REPLACED    for some of them the explorer has functions of its own (explorer/rust.inc);
  UNSEEN      a test that calls one of these cannot be explored: it stops with a message."""
import glob
import os
import re
import shlex
import shutil
import subprocess
import sys

import library

RECORD = os.path.dirname(os.path.dirname(os.path.abspath(__file__)))
OLDEST = (1, 63)
TARGET = "x86_64-unknown-linux-gnu"
# (without -Zshare-generics=no, generic functions of std are taken from its library if it has them for the same type; those that are never inlined
# still are, such as the growth of a Vec<u8>)
SEEN = "-Zsanitizer=thread -Zshare-generics=no -Cpanic=abort -Copt-level=1 -Ccodegen-units=1 -Cdebuginfo=2".split()
# More flags, each given if this rustc has it; with its name in the list of flags.
FURTHER = (
    ("-Z", "external-clangrt", "-Zexternal-clangrt"),
    ("-C", "unsafe-allow-abi-mismatch", "-Cunsafe-allow-abi-mismatch=sanitizer"),
    ("-C", "dwarf-version", "-Cdwarf-version=4"),
)
# The linker for a rustc without -Zexternal-clangrt, which would link the sanitizer's library.
LINKER = """#!/bin/sh
for word; do
    shift
    case $word in *rt.tsan.a) ;; *) set -- "$@" "$word" ;; esac
done
exec {linker} "$@"
"""

# Functions of std, by their names without crate numbers and angle brackets, and their replacements in explorer/rust.inc.
REPLACED = (
    (r"std::sys::.*::Mutex::lock_contended", "explore_std_lock"),
    (r"std::sys::.*::(Mutex::wake|futex_wake|futex_wake_all)", "explore_std_wake"),
    (r"std::sys::.*::Condvar::wait", "explore_std_wait"),
    (r"std::sys::.*::Condvar::wait_timeout", "explore_std_wait_timeout"),
    (r"std::(sys|sync)::.*::Condvar::notify_(one|all)", "explore_std_notify"),
    (r"std::thread::(functions::)?park", "explore_std_park"),
    (r"std::thread::(functions::)?park_timeout", "explore_std_park_timeout"),
    (r"std::thread::thread::Thread::park", "explore_std_park_thread"),
    (r"std::thread::thread::Thread::park_timeout", "explore_std_park_thread_timeout"),
)
UNSEEN = (
    r"std::(sys|sys_common|sync)::.*(Mutex|Condvar|RwLock|Once|Barrier|ReentrantLock|Parker|SyncWaker|SignalToken|WaitToken)::\w+",
    r"std::thread::(.*::)?(park|park_timeout|park_timeout_ms|unpark)",
)
# (used by std itself, or without accesses that another thread makes)
SEEN_ENOUGH = r".*::(new|fmt|default|drop|is_leader|is_poisoned|timed_out|poison|raw|verify)"

# A call of such a function saves its arguments, calls explore_std_unseen, which does not return during a run, and continues.
STUB = """    .globl "__wrap_{name}"
"__wrap_{name}":
    push %rdi; push %rsi; push %rdx; push %rcx; push %r8; push %r9; push %rax
    lea {number}f(%rip), %rdi
    mov 56(%rsp), %rsi
    call explore_std_unseen
    pop %rax; pop %r9; pop %r8; pop %rcx; pop %rdx; pop %rsi; pop %rdi
    jmp "__real_{name}"
{number}: .asciz "{words}"
"""


def stop(words):
    """Exits as record/explore does if it cannot explore."""
    print(f"explore: {words}", file=sys.stderr)
    sys.exit(2)


def run(command, env=None, hint=""):
    """Runs a command; if it fails, exits with status 2."""
    try:
        status = subprocess.run(command, check=False, env={**os.environ, **(env or {})}).returncode
    except OSError as error:
        stop(f"{command[0]}: {error.strerror}")
    if status != 0:
        stop(f"status {status}: {shlex.join(command)}{hint}")


def answer(command):
    """The output of a command."""
    return subprocess.run(command, capture_output=True, text=True, check=False).stdout


# ---- the compiler ----


class Compiler:
    """rustc: $RUSTC, or the one on the PATH, and the flags that it needs to instrument accesses."""

    def __init__(self, room):
        self.command = shlex.split(os.environ.get("RUSTC", "rustc"))
        # (flags that begin with -Z need a nightly rustc, or one that is made to accept them)
        os.environ["RUSTC_BOOTSTRAP"] = "1"
        self.check_version()
        self.c = shlex.split(os.environ.get("CC", "gcc"))
        linker = shutil.which(self.c[0])
        if not linker:
            stop(f"{self.c[0]}: not found, but it is needed to link a test in Rust (Debian: apt-get install gcc); set CC=.. for another one")
        if not shutil.which("readelf") or not shutil.which("c++filt"):
            stop("readelf, c++filt: not found, but a test in Rust needs them (Debian: apt-get install binutils)")
        lists = {kind: answer([*self.command, f"{kind}help"]) for kind in ("-Z", "-C")}
        if not re.search(r"(?m)^ +-Z +sanitizer=", lists["-Z"]):
            stop(f"{shlex.join(self.command)} has no -Zsanitizer=thread")
        further = [flag for kind, name, flag in FURTHER if re.search(rf"(?m)^ +{kind} +{name}=", lists[kind])]
        if "-Zexternal-clangrt" not in further:
            with open(f"{room}/linker", "w", encoding="utf-8") as file:
                file.write(LINKER.format(linker=shlex.quote(linker)))
            os.chmod(f"{room}/linker", 0o700)
            linker = f"{room}/linker"
        self.seen = [*SEEN, *further, f"-Clinker={linker}"]

    def check_version(self):
        try:
            printed = subprocess.run([*self.command, "-vV"], capture_output=True, text=True, check=False)
        except OSError as error:
            stop(
                f"{self.command[0]}: {error.strerror}: a test in Rust needs rustc {OLDEST[0]}.{OLDEST[1]} or newer "
                "(Debian: apt-get install rustc); set RUSTC=.. for another one"
            )
        version = re.search(r"(?m)^release: (\d+)\.(\d+)", printed.stdout)
        host = re.search(r"(?m)^host: (\S+)", printed.stdout)
        if not version or not host:
            stop(f"{shlex.join(self.command)} -vV does not print its version: {printed.stderr.strip()}")
        if (int(version[1]), int(version[2])) < OLDEST:
            stop(f"rustc {version[1]}.{version[2]} is too old: a test in Rust needs {OLDEST[0]}.{OLDEST[1]} or newer; set RUSTC=.. for another one")
        if host[1] != TARGET:
            stop(f"{shlex.join(self.command)} makes programs for {host[1]}: explore needs {TARGET}")

    def std(self):
        """The functions in std's library: linker names, with the demangled names."""
        folder = answer([*self.command, "--print", "target-libdir"]).strip()
        library = glob.glob(f"{glob.escape(folder)}/libstd-*.rlib")
        if not library:
            stop(f"{folder} has no libstd: is Rust's std for {TARGET} installed? (Debian: apt-get install libstd-rust-dev)")
        symbols = (words for words in map(str.split, answer(["readelf", "-sW", library[0]]).splitlines()) if len(words) > 7)
        names = sorted({name for _, _, _, sort, binding, _, section, name, *_ in symbols if sort == "FUNC" and binding != "LOCAL" and section != "UND"})
        demangled = subprocess.run(["c++filt"], input="\n".join(names), capture_output=True, text=True, check=True).stdout.splitlines()
        return {name: re.sub(r"\[[0-9a-f]+\]|::h[0-9a-f]{16}$|[<>]", "", words) for name, words in zip(names, demangled)}

    def waits(self, room):
        """A file of linker flags: replacements for functions of std that wait or lock, or reports that they are called."""
        flags, stubs = [], []
        for name, words in self.std().items():
            by = next((by for pattern, by in REPLACED if re.fullmatch(pattern, words)), None)
            unseen = not by and any(re.fullmatch(pattern, words) for pattern in UNSEEN) and not re.fullmatch(SEEN_ENOUGH, words)
            if by or unseen:
                flags.append(f"-Wl,--wrap={name}")
            if by:
                flags.append(f"-Wl,--defsym=__wrap_{name}={by}")
            if unseen:
                stubs.append(STUB.format(name=name, words=words, number=len(stubs) + 1))
        with open(f"{room}/unseen.s", "w", encoding="utf-8") as file:
            file.write("    .text\n" + "".join(stubs) + '    .section .note.GNU-stack,"",@progbits\n')
        run([*self.c, "-c", f"{room}/unseen.s", "-o", f"{room}/unseen.o"])
        with open(f"{room}/waits", "w", encoding="utf-8") as file:
            file.write("\n".join([*flags, f"{room}/unseen.o"]) + "\n")
        return f"{room}/waits"


# ---- the crates ----


class Crate:
    """A crate that the test needs: its name, its file, its edition (None: that of the test), its features, the crates that it needs (None:
    all before it), its environment, the parent of its folder; whether it has a build script."""

    def __init__(self, name, source, edition=None, features=(), needs=None, env=None, beside=None):
        self.name, self.source, self.edition, self.features = name.replace("-", "_"), source, edition, features
        self.needs, self.env, self.beside, self.has_script = needs, env or {}, beside, False


def crate_of(word):
    """The crate that an argument names: NAME=FILE, NAME=FOLDER or FOLDER, each with or without :FEATURE,FEATURE."""
    name, path = word.split("=", 1) if "=" in word else (None, word)
    wanted = None
    if not os.path.exists(path) and ":" in path:
        path, wanted = path.rsplit(":", 1)
        wanted = [feature for feature in wanted.split(",") if feature]
    if not os.path.exists(path):
        stop(f"{path}: no such file or folder")
    if os.path.isdir(path):
        return crate_of_folder(name, path, wanted)
    if not name:
        module = os.path.basename(path).split(".")[0]
        stop(f"{path}: give a crate as NAME={path}, or by its folder; a module of the test is named only in the test, as `mod {module};`")
    return Crate(name, path, features=wanted or ())


def crate_of_folder(name, folder, wanted):
    """The crate that a Cargo.toml describes: edition, source, features (those of `default` unless others are named)."""
    try:
        import tomllib
    except ImportError:
        stop(f"{folder}: python3 before 3.11 cannot read Cargo.toml: give NAME={folder}/src/lib.rs:FEATURE,FEATURE")
    try:
        with open(f"{folder}/Cargo.toml", "rb") as file:
            manifest = tomllib.load(file)
    except OSError:
        stop(f"{folder}: no Cargo.toml: give NAME=FILE for a crate without one")
    except tomllib.TOMLDecodeError as error:
        stop(f"{folder}/Cargo.toml: {error}")
    package, library = manifest.get("package", {}), manifest.get("lib", {})
    if library.get("proc-macro") or library.get("proc_macro"):
        stop(f"{folder}: procedural macros are not supported")
    own_name, source = library.get("name", package.get("name", "")), f"{folder}/{library.get('path', 'src/lib.rs')}"
    if not own_name or not os.path.exists(source):
        stop(f"{folder}: its Cargo.toml names no library, or {source} does not exist")
    edition = package.get("edition", "2015")
    version = package.get("version", "0.0.0")
    version = version if isinstance(version, str) else "0.0.0"
    env = {"CARGO_MANIFEST_DIR": os.path.abspath(folder), "CARGO_PKG_NAME": package.get("name", ""), "CARGO_PKG_VERSION": version}
    env.update(zip(("CARGO_PKG_VERSION_MAJOR", "CARGO_PKG_VERSION_MINOR", "CARGO_PKG_VERSION_PATCH"), version.split("-")[0].split(".")))
    features = closure(manifest.get("features", {}), wanted)
    needs = [
        need.replace("-", "_")
        for need, how in manifest.get("dependencies", {}).items()
        if not isinstance(how, dict) or not how.get("optional") or need in features
    ]
    edition = edition if isinstance(edition, str) else None  # (else it is inherited from a workspace)
    crate = Crate(name or own_name, source, edition, features, needs, env, os.path.dirname(os.path.abspath(folder)))
    crate.has_script = bool(package.get("build", os.path.exists(f"{folder}/build.rs")))
    return crate


def closure(features, wanted):
    """The enabled features: those wanted, else `default`, and those that they enable. `dep:NAME` and `NAME/FEATURE` turn NAME on,
    `NAME?/FEATURE` nothing."""
    on, todo = [], list(wanted) if wanted is not None else ["default"] * ("default" in features)
    while todo:
        feature = todo.pop().removeprefix("dep:").split("/")[0]
        if feature not in on and not feature.endswith("?"):
            on.append(feature)
            todo += features.get(feature, [])
    return sorted(on)


def with_needs(crates):
    """These, and the crates that they need and that are in the folder beside them: NAME or NAME-VERSION, as in a folder of `cargo vendor` or of Debian."""
    crates = list(crates)
    for crate in crates:
        for need in crate.needs or ():
            patterns = [pattern for name in {need, need.replace("_", "-")} for pattern in (name, f"{name}-[0-9]*")]
            folders = sorted(folder for pattern in patterns for folder in glob.glob(f"{glob.escape(crate.beside)}/{pattern}/Cargo.toml"))
            if folders and need not in {other.name for other in crates}:
                crates.append(crate_of_folder(None, os.path.dirname(folders[-1]), None))
    return crates


def in_order(crates):
    """The crates, each after those that it needs; a crate given by its file needs all before it."""
    done, left = [], list(crates)
    while left:
        waiting = {crate.name for crate in left}
        ready = next((crate for crate in left if (crate is left[0] if crate.needs is None else not waiting & set(crate.needs))), None)
        if ready is None:
            stop(f"the crates {', '.join(sorted(waiting))} depend on each other in a circle")
        done.append(ready)
        left.remove(ready)
    return done


# ---- what record/explore calls ----


def is_rust(sources):
    """Whether these are the sources of a test in Rust."""
    return any(source.endswith(".rs") for source in sources)


def build(sources, flags, program, room, explorer):
    """Builds the program from the test, which comes first, and the crates that it needs. The flags go to rustc for each of them; --edition is
    that of the test and of crates given by their file (default 2021). Intermediate files are left in the folder room. explorer returns
    the explorer's object, for a C compiler and that folder."""
    test, *words = sources
    if not test.endswith(".rs"):
        stop(f"{test}: give the test in Rust first, then the crates that it needs")
    if not os.path.isfile(test):
        stop(f"{test}: no such file")
    archive = f"{library.folder()}/libring_audit.a"
    if not os.path.exists(archive):
        stop(f"{archive}: no such file; set LIBRARY=FOLDER for another folder")
    compiler = Compiler(room)
    crates = in_order(with_needs(map(crate_of, words)))
    scripts = [crate.name for crate in crates if crate.has_script]
    if scripts:
        print(f"explore: the build script of {', '.join(scripts)} is not run: flags that it would set can be given after --, as --cfg NAME", file=sys.stderr)
    editions = [flag for flag in flags if flag.startswith("--edition=")] or ["--edition=2021"]
    if "--edition" in flags:
        at = flags.index("--edition")
        editions, flags = [f"--edition={flags[at + 1] if at + 1 < len(flags) else ''}"], flags[:at] + flags[at + 2 :]
    flags = [flag for flag in flags if not flag.startswith("--edition=")]
    known = [f"-L{room}"]
    given = {crate.name for crate in crates}
    for crate in [Crate("explore", f"{RECORD}/include/rust/explore.rs", "2021"), *crates]:
        features = [word for feature in crate.features for word in ("--cfg", f'feature="{feature}"')]
        own = [] if crate.name == "explore" else ["--cap-lints=allow", *flags]
        missing = [need for need in crate.needs or () if need not in given]
        hint = f"\n  ({crate.name} needs {', '.join(missing)}, too: give each by its folder or as NAME=FILE)" if missing else ""
        edition = [f"--edition={crate.edition}"] if crate.edition else editions
        run(
            [
                *compiler.command,
                *compiler.seen,
                *edition,
                *own,
                *features,
                *known,
                f"--crate-name={crate.name}",
                "--crate-type=rlib",
                f"--out-dir={room}",
                crate.source,
            ],
            crate.env,
            hint,
        )
        known += ["--extern", f"{crate.name}={room}/lib{crate.name}.rlib"]
    linked = [f"-Clink-arg={explorer(compiler.c, room)}", f"-Clink-arg={os.path.abspath(archive)}", f"-Clink-arg=@{compiler.waits(room)}", "-Clink-arg=-lc"]
    run([*compiler.command, *compiler.seen, *editions, *flags, *known, *linked, "-o", program, test])
