# What the programs for people share: messages, --version, a folder for what they read, an input read whole, numbers as
# a program reads them, and proving first. To be read by their scripts, with $root (this clone), $name (theirs),
# $program (the crate that is run) and $usage set.
fail() { # STATUS MESSAGE
    echo "$name: $2" >&2
    exit "$1"
}
{ true 3>&1; } 2>/dev/null || fail 4 "standard output is closed"

version() {
    echo "hourbench $(cat "$root/VERSION")"
    . "$root/tools/prove.sh"
    if is_proved "$program"; then
        echo "proved with $(head -n 1 "$root/target/$program.proved")"
    else
        echo "not checked here yet; the next run does, with $(rt version)"
    fi
}

# A folder, $room, that is gone when the script ends.
make_room() {
    room=$(mktemp -d)
    trap 'rm -rf "$room" || :' EXIT
    trap 'exit 129' HUP
    trap 'exit 130' INT
    trap 'exit 143' TERM
}

# An input, or the one on standard input where it is called '-', read before anything else: what cannot be read is not
# refused by number. Of a longer one no more than MOST bytes.
take() { # INPUT WHAT MOST FILE
    if [ "$1" = - ]; then
        { true 3<&0; } 2>/dev/null || fail 2 "standard input is closed; $usage"
        [ ! -t 0 ] || fail 2 "no $2: name one, or give it on standard input; $usage"
        why=$(head -c "$3" 2>&1 >"$4") || fail 2 "cannot read standard input: ${why##*: }"
    else
        why=$(head -c "$3" -- "$1" 2>&1 >"$4") || fail 2 "cannot read $1: ${why##*: }"
    fi
}

# A number as so many bytes, the lowest first.
bytes() { # NUMBER COUNT
    x=$1 i=0
    while [ $i -lt "$2" ]; do
        printf "\\$(printf %03o $((x % 256)))"
        x=$((x / 256)) i=$((i + 1))
    done
}

size() { wc -c <"$1" | tr -d ' '; } # FILE

# Proves the program where that is not done yet; in a clone that cannot be written it must be. $built is what to run.
prove_first() {
    . "$root/tools/prove.sh"
    built=$(program_of "$program")
    is_proved "$program" && return
    if mkdir -p "$root/target" 2>/dev/null && [ -w "$root/target" ]; then
        prove "$program"
    else
        prove_aside "$program" "$room/aside" && built=$aside
    fi
}

# The output could not be written whole, by the status of what wrote it.
unwritten() { # STATUS
    [ "$1" -ne 141 ] || exit 4 # the reader went away (SIGPIPE), as readers may
    fail 4 "the output could not be written whole"
}
