# What ./olap, ./olap-unproved and the gate share: is a program built from the sources beside it, what is said while one is
# built, and how many crates are proved side by side. Read by them, and not run.

# One checksum over the sources.
sources() { bash "$top/tools/sources-sum"; }

# What a program was built from, and the program itself, as checksums. Times of files say nothing here.
built_from() { echo "$2 $(sha256sum <"$1")"; }

is_current() {
    [ -x "$1" ] && [ -f "$1.sources" ] && [ "$(cat "$1.sources")" = "$(built_from "$1" "$(sources)")" ]
}

give_up() {
    printf "${0##*/}: %s\n" "$@" >&2
    exit 70
}

# One line, in place of the last one if standard error is a terminal.
say_line() {
    if [ -t 2 ]; then printf '\r\033[K%s: %s' "${0##*/}" "$1" >&2; else printf '%s: %s\n' "${0##*/}" "$1" >&2; fi
}

# How many crates rt may prove side by side: one for each processor, if there are 5 GB of memory for each; few crates take
# as much. Left to itself rt plans on more and leaves processors idle. Nothing is said if the memory isn't known.
lanes() {
    local memory processors
    memory=$(awk '/^MemAvailable:/ { print int($2 / 5000000) }' /proc/meminfo 2>/dev/null)
    processors=$(nproc)
    [ -z "$memory" ] || echo "$((memory < 1 ? 1 : memory < processors ? memory : processors))"
}
