# For the scripts that build: what a crate is built from, and a build that tells how far it is and that ends with its script.
# The script that reads this file has set `name`, by which it speaks, and `top`, the folder of the repository.

say() {
    echo "$name: $*" >&2
}

# took: how long the script has run, which set `started`, and the processor time that it and what it ran took.
took() {
    took=$(($(date +%s) - started))
    say "took $((took / 60))m$(printf %02d $((took % 60)))s; processor time, user and system, of it and of what it ran:"
    times >&2
}

# crates_below CRATE: it and the crates of the repository that it stands on, each after those that it stands on itself.
crates_below() {
    awk -v last="$1" '
        /^[a-z]/ { crate = $1; sub(/:$/, "", crate); line = $0; sub(/^[^:]*:/, "", line); uses[crate] = line }
        function walk(crate, below, count, i) {
            if (!(crate in uses) || crate in seen) return
            seen[crate] = 1
            count = split(uses[crate], below, " ")
            for (i = 1; i <= count; i++) walk(below[i])
            print crate
        }
        END { walk(last) }' "$top/crates.txt"
}

# code: of the files whose paths are on standard input, the paths and the lines that are code: a build does not depend on blank lines and
# on lines that are a comment alone. (tests/launcher looks that no string has such a line in it.)
code() {
    xargs awk '
        FNR == 1 { print FILENAME; is_antt = FILENAME ~ /[.]antt$/ }
        is_antt ? !/^[ \t]*(--( .*)?)?$/ : !/^[ \t]*(\/\/.*)?$/'
}

# sources_sum CRATE..: a SHA-256 of what these crates are built from, the code of their files and their lines of crates.txt: the same on
# each machine. Four parts are summed side by side, as it is asked before each run.
sources_sum() {
    (
        cd "$top" || exit
        export LC_ALL=C
        sum=$(
            {
                names=
                for turn in 0 1 2 3; do
                    at=0
                    folders=
                    for crate in "$@"; do
                        if [ $((at % 4)) -eq "$turn" ]; then
                            names="$names|$crate"
                            for part in src specs proofs; do
                                [ ! -d "crates/$crate/$part" ] || folders="$folders crates/$crate/$part"
                            done
                        fi
                        at=$((at + 1))
                    done
                    # shellcheck disable=SC2086
                    [ -z "$folders" ] || find $folders -type f ! -name '.*' \( -name '*.rt' -o -name '*.antt' \) | sort | code | sha256sum &
                done
                grep -E "^(${names#|})[: ]" crates.txt
                wait
            } | sort | sha256sum
        )
        echo "${sum%% *}"
    )
}

# has_room FOLDER MEGABYTES: whether that much is free where the folder is; if not, it says so.
has_room() {
    free=$(df -Pk "$1" | awk 'NR == 2 { print int($4 / 1024) }')
    [ "${free:-0}" -lt "$2" ] || return 0
    say "not built: it needs $2 MB of disk at $1, and $free MB are free"
    return 1
}

# how_far LOG COUNT: how far a build of so many crates is, by what rt has said so far; lines with `@CRATE ` in front are of a run of
# that crate's own.
how_far() {
    awk -v count="$2" '
        { run = ""; if (sub(/^@/, "")) { run = $1; sub(/^[^ ]* /, "") } }
        /^rt: chose --jobs/ { if (!(run in crate)) order[++runs] = run; crate[run] = $NF; now[run] = ""; proved[run] = 0; at++ }
        /^checked .*, [0-9]+ of [0-9]+$/ { now[run] = " " $(NF - 2) "/" $NF }
        # (one process of rt tells none before its end)
        /^so far: / { now[run] = $3 > 0 ? " " $3 "/" $5 : "" }
        /^logic=proved/ || /^built$/ { proved[run] = 1 }
        END {
            for (i = 1; i <= runs; i++) {
                run = order[i]
                if (proved[run]) last = crate[run]
                else work = work (work ? ", " : "") crate[run] now[run]
            }
            if (!at) print "reading the sources"
            else if (work) print "[" at " of " count "] " work
            else if (at == count) print "[" at " of " count "] " last " proved; compiling and linking"
            else print "[" at " of " count "] " last ", proved"
        }' "$1"
}

# build FOLDER LOG COUNT COMMAND..: runs the command in the folder, in a process group of its own, so that an end of this
# script ends it too, and reports its progress, out of so many crates. Files in $unfinished are removed where it is ended.
build() {
    folder=$1
    log=$2
    count=$3
    shift 3
    began=$(date +%s)
    (cd "$folder" && exec setsid "$@") </dev/null >"$log" 2>&1 &
    building=$!
    # (a shell's own kill takes no `-TERM --` in front of a group everywhere)
    trap 'kill -s TERM -- "-$building" 2>/dev/null; rm -f $unfinished; exit 143' TERM
    trap 'kill -s TERM -- "-$building" 2>/dev/null; rm -f $unfinished; exit 130' INT
    trap 'kill -s TERM -- "-$building" 2>/dev/null; rm -f $unfinished; exit 129' HUP
    told=
    told_at=0
    while kill -0 "$building" 2>/dev/null; do
        sleep 1
        far=$(how_far "$log" "$count")
        took=$(($(date +%s) - began))
        # a line in ten seconds where something moved, in thirty where nothing did
        waited=$((took - told_at))
        if [ -z "$told" ] || { [ "$far" != "$told" ] && [ "$waited" -ge 10 ]; } || [ "$waited" -ge 30 ]; then
            say "$far, $((took / 60))m$(printf %02d $((took % 60)))s"
            told=$far
            told_at=$took
        fi
    done
    built=0
    wait "$building" || built=$?
    trap - TERM INT HUP
    return "$built"
}
