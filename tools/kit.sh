# Where the Rattle kit stands, and how a program for x86-64 is run on this machine. To be read by the other scripts
# (`. tools/kit.sh`).
command -v rt >/dev/null || {
    echo "${0##*/}: the Rattle kit is missing: no rt on the PATH. README.md has what is needed (Two commands)" >&2
    return 1
}
# On another machine than x86-64 an emulator of the system's runs what is built, where there is one.
case $(uname -m) in
x86_64) emulator='' cross=cc ;;
*) emulator=qemu-x86_64 cross=x86_64-linux-gnu-gcc ;;
esac

# A program that rt built: crates/NAME/out/NAME. Programs for x86-64 alone have their loader where it says.
run_proved() { run_c "$@"; }

# A C program that $cross linked.
run_c() {
    if [ -z "$emulator" ]; then
        "$@"
    else
        "$emulator" -L "$(dirname "$(dirname "$("$cross" -print-file-name=libc.so.6)")")" "$@"
    fi
}

# The C compiler for x86-64.
need_cross() {
    command -v "$cross" >/dev/null && return
    echo "${0##*/}: $cross is missing; on Debian: apt-get install gcc-x86-64-linux-gnu libc6-dev-amd64-cross" >&2
    exit 2
}

# The machine in a few words, and how it runs programs for x86-64.
machine() {
    name=$(sed -n 's/^model name[^:]*: //p' /proc/cpuinfo | head -n 1)
    how=${emulator:+under an emulator}
    echo "$(uname -m)${name:+, $name}, $(nproc) processors; programs for x86-64 run ${how:-on it itself}"
}
