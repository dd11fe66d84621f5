# What the commands of this repository share. A command goes to the repository's root, puts its own path from there into `me`, and reads
# this file. Its head, up to the first line that is no comment, is its help, and the head's first line is its usage.
# shellcheck shell=sh

: "${me:?}"

say() {
    echo "$me: $*" >&2
}

fail() {
    say "$*"
    exit 1
}

# Answers -h and --help.
help() {
    case ${1:-} in
    -h | --help)
        sed -n '2,/^[^#]/s/^# \{0,1\}//p' "$me"
        exit 0
        ;;
    esac
}

# usage [WHY]: says why, and how the command is called.
usage() {
    [ $# -eq 0 ] || say "$*"
    sed -n '2s/^# //p' "$me" >&2
    exit 2
}

# need COMMAND PACKAGE: stops where the command is missing.
need() {
    command -v "$1" >/dev/null || fail "no $1 here ($2)"
}

# Finds the Rattle kit. Under another kit than that of kit.txt nothing is weaker, for rt trusts no other kit's proofs and makes its own; but
# nobody has seen that it can.
need_kit() {
    command -v rt >/dev/null || fail "no rt here: the Rattle kit is missing, or its bin/ is not in PATH"
    here=$(rt version) || exit
    pinned=$(sed '/^#/d' kit.txt)
    [ "$here" = "$pinned" ] ||
        say "the kit here is $here; all was proved with $pinned (kit.txt), and is proved again with this one, which may refuse or take longer"
}

# Prints the emulator of x86-64 programs.
find_emulator() {
    for e in qemu-x86_64 qemu-x86_64-static; do
        ! command -v "$e" || return 0
    done
    fail "no qemu-x86_64 here (Debian's package qemu-user)"
}

# Prints nothing where the processor runs x86-64 programs itself, else the emulator.
emulator_if_needed() {
    [ "$(uname -m)" = x86_64 ] || find_emulator
}

# Says which crate is being proved, each time that it is another one. target/log/said has what rt has printed so far: a line where it begins to
# prove a crate, and none for a crate that has not changed.
tell_progress() {
    shown=
    while sleep 1 >/dev/null 2>&1 && kill -0 $$ 2>/dev/null; do
        now=$(sed -n 's/^rt: chose --jobs [0-9]* for //p' target/log/said | tail -n 1)
        [ -z "$now" ] || [ "$now" = "$shown" ] || say "proving $now"
        shown=$now
    done
}

# prove NAME WORD: `rt WORD` in the folder of the crate NAME, which first proves what the crate stands on and may take minutes the first time.
# Silent where nothing is left to prove. Where rt refuses, prints all that rt said and ends with its status.
prove() {
    mkdir -p target/log
    : >target/log/said
    tell_progress &
    teller=$!
    status=0
    (cd "crates/$1" && exec rt "$2") </dev/null >target/log/said 2>&1 || status=$?
    { kill "$teller" && wait "$teller"; } 2>/dev/null || :
    [ "$status" -eq 0 ] || { cat target/log/said >&2 && exit "$status"; }
}

# The sum of what libcard.a is made of, the kit and every file of the crates, which is given in `made_of`, and of the library itself.
library_sum() {
    { echo "$made_of" && sha256sum <"$library"; } | sha256sum
}

# Proves the card and makes target/staticlib/libcard.a, which is the crate card_c as `rt lib` makes it. That checks the crate each time: so a
# library that was made of the same files by the same kit is left as it is.
make_library() {
    library=target/staticlib/libcard.a made=target/staticlib/made
    made_of=$(echo "$here" && find crates.txt crates -type f ! -path '*/must-fail/*' ! -path '*/out/*' -exec sha256sum {} + | LC_ALL=C sort)
    if [ -f "$library" ] && [ -f "$made" ] && [ "$(library_sum)" = "$(cat "$made")" ]; then return 0; fi
    prove card_c lib
    mkdir -p target/staticlib
    cp crates/card_c/out/libcard_c.a "$library"
    library_sum >"$made"
}
