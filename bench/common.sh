# What bench/ask, bench/step and bench/timing share: how they say what is missing, and how a program's instructions are counted. They set `bench`, their
# name, read this in at the top of the repository, look at their words and call `machine`; what they make goes to $room. Rattle's kit builds for x86-64, and
# on x86-64, alone, so nothing here runs anywhere else.
fail() {
    echo "$bench: $*" >&2
    exit 2
}
need() {
    for tool in "$@"; do command -v "$tool" >/dev/null 2>&1 || fail "it needs $tool, which is not on the PATH"; done
}
room=target/bench
machine() {
    [ "$(uname -sm)" = "Linux x86_64" ] || fail "it needs Linux on x86-64, for which alone Rattle's kit proves and builds; this is $(uname -sm)"
    need rt gcc valgrind
    mkdir -p "$room"
}
count() { # COMMAND..: the instructions that it executes
    valgrind --tool=callgrind --callgrind-out-file=/dev/null "$@" 2>&1 >/dev/null | sed -n 's/.*Collected : //p'
}
