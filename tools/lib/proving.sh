# What proves: for the launchers and the tools around the library, sourced as common.sh is. It knows from crates.txt what a crate rests on, tells whether
# something built is older than its sources, and runs rt with a line of progress. What rt keeps and builds of a crate stands in crates/NAME/out, which
# `rt ci` clears; what the tools take over from there and make themselves stands in target/.
# shellcheck shell=bash
# shellcheck source=tools/lib/common.sh
. "${root:?}/tools/lib/common.sh"

# The crates of the repository that the named one rests on, and itself, by crates.txt.
crates_under() { # NAME
    awk -v name="$1" '
        { sub(/#.*/, "") }
        match($0, /:/) { split(substr($0, 1, RSTART - 1), words, " "); rests[words[1]] = substr($0, RSTART + 1) }
        function visit(crate, i, n, on) {
            if (seen[crate]++ || !(crate in rests)) return
            print crate
            n = split(rests[crate], on, " ")
            for (i = 1; i <= n; i++) visit(on[i])
        }
        END { visit(name) }' "$root/crates.txt"
}

# The folders, from the repository's own, whose files are proved for the named crate.
sources_of() { # NAME
    local crate part
    crates_under "$1" | while IFS= read -r crate; do
        for part in src specs proofs; do [ ! -d "$root/crates/$crate/$part" ] || echo "crates/$crate/$part"; done
    done
}

# Whether all that was built stands and is as new as its sources. STAMP is as old as the beginning of the last check that went through, and names the
# folders that there were. A file's time of change (ctime) is compared, which no tool sets back; a folder's shows a file that was deleted or added.
is_fresh() { # STAMP CRATE BUILT...
    local stamp=$1 crate=$2 built sources changed
    for built in "$stamp" "${@:3}"; do [ -s "$built" ] || return 1; done
    mapfile -t sources < <(sources_of "$crate")
    [ "$(printf '%s\n' "${sources[@]}")" = "$(cat "$stamp")" ] || return 1
    changed=$(cd "$root" && find crates.txt "${sources[@]}" -cnewer "$stamp" -print -quit) || return 1
    [ -z "$changed" ]
}

# A word where an archive of nsq_c was not made by tools/build-lib from what stands here.
warn_if_stale() { # ARCHIVE
    is_fresh "${1%.a}.stamp" nsq_c || say "the archive may be older than its sources; tools/build-lib makes it anew"
}

# One at a time builds in this folder, so that whoever waited finds it built. Without the command flock nobody waits.
take_turn() {
    mkdir -p "$root/target"
    command -v flock >/dev/null || return 0
    exec {turn}>"$root/target/proving.lock"
    flock -n "$turn" && return
    say "another run is proving here; waiting for its end"
    flock "$turn"
}
end_turn() { [ -z "${turn:-}" ] || exec {turn}>&-; }

# What a check will do and about how long it takes: at 8 seconds for each crate. A library that was proved before has rt's stamp, a program and nsq_c
# never.
announce() { # CRATE
    local crate crates left=0 rests minutes
    mapfile -t crates < <(crates_under "$1")
    for crate in "${crates[@]}"; do [ -e "$root/crates/$crate/out/rlib/stamp" ] || left=$((left + 1)); done
    rests="$1 and the $((${#crates[@]} - 1)) crates that it rests on"
    [ "$left" -eq ${#crates[@]} ] || rests+=" ($((${#crates[@]} - left)) are proved already)"
    minutes="$(((left * 8 + 59) / 60)) minutes"
    if [ "$left" -le 1 ]; then
        say "checking $rests; what has not changed is not proved again"
    else
        say "proving and building $rests; about ${minutes/#1 minutes/1 minute} on two processors, once"
    fi
}

# Reads what `rt all check` says and keeps the line `proved 12 of 31: choice`: one line on a terminal, else one for each crate that was proved anew.
show_progress() { # TOTAL
    local line name='' before='' after=$'\n' count=0
    [ ! -t 2 ] || before=$'\r\e[K' after=''
    while IFS= read -r line; do
        case $line in
        "== summary") name='' ;;
        "== "*) name=${line#== } count=$((count + 1)) ;;
        "logic=proved "*) [ -z "$name" ] || printf '%s%s: proved %d of %d: %s%s' "$before" "$tool" "$count" "$1" "$name" "$after" >&2 ;;
        "rt: waiting for another rt "*) printf '%s%s: %s%s' "$before" "$tool" "${line#rt: }" "$after" >&2 ;;
        esac
    done
    printf '%s' "$before" >&2
}

# Proves a crate and what it rests on, two at a time where there is room, and then runs a command (a function that calls rt) that builds it; both in its
# folder, with progress and a log. Ends where either fails. STAMP is set to the beginning.
prove() { # CRATE STAMP LOG COMMAND...
    local crate=$1 stamp=$2 log=$3 total began=$SECONDS
    total=$(crates_under "$crate" | wc -l)
    announce "$crate"
    mkdir -p "$(dirname "$stamp")" "$(dirname "$log")"
    rm -f "$stamp"
    sources_of "$crate" >"$stamp.new"
    if ! (cd "$root/crates/$crate" && export LC_ALL=C && rt all check && "${@:4}") </dev/null 2>&1 | tee "$log" | show_progress "$total"; then
        grep -vE '^(== |statements |library |logic /|[a-z0-9_]+: (ok|not run, .*)$)' "$log" | tail -n 40 >&2
        complain 1 "not proved or not built; the whole log is $log"
    fi
    mv "$stamp.new" "$stamp"
    say "$crate is proved and built ($((SECONDS - began)) s)"
}
