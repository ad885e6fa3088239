# For the launcher, the tests and the gate: the program as shipped, dist/lamport_ring, and dist/BUILT, which says of which sources it was
# built (`sources` and their sum), by which kit (`kit` and its line) and what its own SHA-256 is (`program`). For Linux on ARM64 both are in
# dist/aarch64-linux/. The script that reads this file has read tools/building.sh.

# for_machine NAME: what follows is about the machine with this name, of those that `uname -m` has: place is the folder for it, in dist/ and
# in the out/ of a crate (x86-64 has none of its own), dist the folder with what is shipped for it, and of_machine its name in words. A
# machine for which there is nothing gets what x86-64 has, and runs_here says so.
for_machine() {
    machine=$1
    place=
    of_machine=x86-64
    case $machine in
    aarch64 | arm64)
        machine=aarch64
        place=/aarch64-linux
        of_machine=ARM64
        ;;
    esac
    dist=dist$place
    shipped=$top/$dist/lamport_ring
}
for_machine "$(uname -m)"

# takes_machine NAME: the same for a machine that a command was given; whether there is one with this name.
takes_machine() {
    case $1 in
    x86_64 | aarch64) for_machine "$1" ;;
    *)
        say "--machine x86_64, or --machine aarch64"
        return 1
        ;;
    esac
}

# verdict_in FOLDER: lines for a file that says how something was built: `verdict`, with rattle's verdict of what was built there, and for
# a program for ARM64 `c-library`, with a sum of the C library that it was linked with.
verdict_in() { sed 's/^logic=/verdict &/' "$1/verdict"; }

# built_of WORD: what the file BUILT says after the word.
built_of() {
    while read -r word said; do
        [ "$word" != "$1" ] || echo "$said"
    done <"$top/$dist/BUILT"
} 2>/dev/null

# sha_of FILE
sha_of() {
    sha=$(sha256sum <"$1")
    echo "${sha%% *}"
}

# is_of SUM: whether the shipped program says that it was built of the sources with this sum.
is_of() { [ -e "$shipped" ] && [ "$(built_of sources)" = "$1" ]; }

# is_whole: whether it has the bytes that BUILT names.
is_whole() { [ "$(built_of program)" = "$(sha_of "$shipped")" ]; }

# may_be_executed FILE: whether it may; if not, it says why.
may_be_executed() {
    [ ! -x "$1" ] || return 0
    if [ "$(find "$1" -prune \( -perm -100 -o -perm -10 -o -perm -1 \))" ]; then
        say "${1#"$top/"} has the permission to be executed, and still may not be: its file system is mounted with noexec, or the permission is another user's"
        say "copy the repository to where programs may run; on a mount with noexec the system's loader, ld-linux, does not run it either"
    else
        say "${1#"$top/"} may not be executed: chmod +x ${1#"$top/"}"
    fi
    return 1
}

# in_its_folder FILE WORD..: runs the file with these words from the folder that it lies in, under a name without the folder's. (The program
# asks for text, of its own name too, and a folder's name may be none.)
in_its_folder() {
    (
        file=$1
        shift
        cd -- "${file%/*}" && exec "./${file##*/}" "$@"
    )
}

# runs_here: whether it runs on this machine; if not, it says why.
runs_here() {
    may_be_executed "$shipped" || return
    told=$(in_its_folder "$shipped" --version 2>&1 >/dev/null) && return 0
    say "$dist/lamport_ring does not run here: it needs Linux on $of_machine with glibc 2.34 or later, as Debian 12, Ubuntu 22.04 and RHEL 9 have"
    [ "$machine" = x86_64 ] || [ "$place" ] || say "dist/ has programs for Linux on x86-64 and on ARM64 (aarch64), none for $machine"
    say "here is $(uname -s) on $(uname -m) with $(getconf GNU_LIBC_VERSION 2>/dev/null || echo "no glibc")${told:+; it said: $(echo "$told" | head -n 1)}"
    say "dist/README.md, Ports, has those for an older Linux on x86-64, for macOS and for Windows"
    return 1
}

# The same for the libraries for C, each as NAME.a and NAME.so.1, with a file beside them that says of what it was built. Of each of
# them: its crate, its name and that file.
for_c="queue_calls_c:libring_audit:LIBRARY ring_c:libcounter_ring:RING"

# library_sum CRATE: the sum of the sources that the library of the crate is built from, as they stand.
library_sum() {
    # shellcheck disable=SC2046
    sources_sum $(crates_below "$1")
}

# library_of FILE WORD: what FILE in dist says after the word.
library_of() {
    while read -r word said; do
        [ "$word" != "$2" ] || echo "$said"
    done <"$top/$dist/$1"
} 2>/dev/null

# is_library_of FILE SUM: whether FILE says that its library was built of the sources with this sum.
is_library_of() { [ "$(library_of "$1" sources)" = "$2" ]; }

# is_library_whole FILE NAME: whether both files of the library have the bytes that FILE names.
is_library_whole() {
    for ending in a so.1; do
        [ "$(library_of "$1" "$2.$ending")" = "$(sha_of "$top/$dist/$2.$ending")" ] || return
    done
} 2>/dev/null
