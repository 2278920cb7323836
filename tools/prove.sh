# Proving before a run: one at a time in a clone, with what is being done on standard error. To be read by the other
# scripts, with $root (this clone) set. What is noted lies in target/: logs, a lock, and what was proved.
. "$root/tools/kit.sh"
me=${0##*/}

# The crates that a crate is made of, itself the last.
made_of() { # NAME
    awk -v name="$1" '
        function visit(n,    part, many, i) {
            if (n in seen || !(n in needs)) return
            seen[n] = 1
            many = split(needs[n], part, " ")
            for (i = 1; i <= many; i++) visit(part[i])
            print n
        }
        { sub(/#.*/, "") }
        split($0, side, ":") == 2 { split(side[1], head, " "); needs[head[1]] = side[2] }
        END { visit(name) }' "$root/crates.txt"
}

# The program and the archive that rt builds, in the crate's own folder.
program_of() { echo "$root/crates/$1/out/$1"; } # NAME
archive=$root/crates/capi_c/out/libcapi_c.a

# One number for what a proof hangs on: the kit, the machine, the crates' files but for what rt makes of them.
files() { find crates.txt crates -path 'crates/*/out' -prune -o -type f -exec sha256sum {} + | LC_ALL=C sort; }
sources() {
    (cd "$root" && { rt version && uname -m && files; } | sha256sum)
}

# Is a crate's program the one that was proved of the crates as they stand? Writes nothing. target/NAME.proved says so:
# the kit, its sources, the program.
is_proved() { # NAME
    [ -r "$root/target/$1.proved" ] && [ -r "$(program_of "$1")" ] &&
        [ "$(sed 1d "$root/target/$1.proved")" = "$(sources && sha256sum <"$(program_of "$1")")" ]
}

# Runs a command while nobody else in this clone is proving.
alone() { # COMMAND..
    mkdir -p "$root/target"
    (
        if command -v flock >/dev/null && ! flock -n 9; then
            echo "$me: waiting for another that is proving here" >&2
            flock 9
        fi
        "$@"
    ) 9>>"$root/target/lock"
}

# Runs a command of rt in a crate's folder, with all that it says in a file, and on standard error what it is at and each
# crate that is done, by its place among those that the crate is made of. A program that it runs reads nothing. Ends as
# rt did.
told() { # LOG COMMAND NAME
    log=$root/target/$1 command=$2 name=$3 crates=$(made_of "$3") at=$3 ended=1
    many=$(echo "$crates" | wc -l)
    {
        (cd "$root/crates/$name" && rt "$command") </dev/null 2>&1 && echo "ended 0" || echo "ended $?"
    } | tee "$log" | {
        while IFS= read -r line; do
            case $line in
            'rt: chose '*' for '*) echo "$me: proving ${line##* for }" >&2 ;;
            'crate '*': '*) at=${line#crate } at=${at%%:*} ;;
            logic=proved*) echo "$me: $(echo "$crates" | grep -nx "$at" | cut -d: -f1) of $many: $at proved" >&2 ;;
            logic=*) echo "$me: $at NOT PROVED" >&2 ;;
            *': error'*) echo "$me: $line" >&2 ;;
            'ended '*) ended=${line#ended } ;;
            esac
        done
        exit "$ended"
    } && ended=0 || ended=$?
    return "$ended"
}

# Proves and builds a program of this clone unless it is proved as it stands.
prove() { alone prove_here "$1"; } # NAME

prove_here() { # NAME
    ! is_proved "$1" || return 0
    from=$(sources) many=$(made_of "$1" | wc -l)
    echo "$me: checking $1 and what it is made of, $many crates; what is new or changed is proved, a minute each" >&2
    told "$1.log" run "$1" || {
        echo "$me: it is not proved; $root/target/$1.log has why" >&2
        return 1
    }
    [ "$from" = "$(sources)" ] || return 0 # changed meanwhile: the next run checks again
    { rt version && echo "$from" && sha256sum <"$(program_of "$1")"; } >"$root/target/$1.proved"
}

# The same in a clone that cannot be written: in a copy rt finds nothing to prove, or the clone is not built. $name is the
# script's. The copy's program is $aside.
prove_aside() { # NAME ROOM
    aside=$2/crates/$1/out/$1
    [ -r "$(program_of "$1")" ] && copy_aside "$1" "$2" &&
        (cd "$2/crates/$1" && timeout 120 rt run) </dev/null >"$2/log" 2>&1 && [ -r "$aside" ] && return
    echo "$me: $root is not built as it stands, and you cannot write there: let its owner run ./$name likewise" >&2
    return 1
}

# A copy of the crates, with what rt made of those that one of them is made of.
copy_aside() { # NAME ROOM
    mkdir -p "$2" && (cd "$root" && tar -cf - --exclude='crates/*/out' crates.txt crates) | tar -xf - -C "$2" &&
        chmod -R u+w "$2" && for c in $(made_of "$1"); do cp -R -p "$root/crates/$c/out" "$2/crates/$c/" || return; done &&
        chmod -R u+w "$2"
}

# Proves the library for C and Rust and writes $archive.
prove_archive() { alone archive_here; }

archive_here() {
    echo "$me: checking the library for C, $(made_of capi_c | wc -l) crates; what is new or changed is proved" >&2
    told capi_c.log lib capi_c || {
        echo "$me: it is not proved; $root/target/capi_c.log has why" >&2
        return 1
    }
}
