# For the commands that run a proved program on files: their arguments, and the program, built where it is missing or older than its sources.
# A command sets `root`, the repository, and `name`, its own name and the program's, defines `usage`, and then sources this file.

# where rt leaves a program that it proved and built
program=$root/crates/$name/out/$name

fail() {
    echo "$name: $*" >&2
    exit 2
}

is_built() {
    [ -x "$program" ] || return 1
    local newer
    newer=$(find "$root/crates.txt" "$root"/crates/*/{src,specs,proofs} -newer "$program" -print -quit 2>/dev/null)
    [ -z "$newer" ]
}

# Only a proved program is built.
build() {
    command -v rt >/dev/null || fail "the program is missing or older than its sources, and rt, which proves and builds it, is not in PATH"
    echo "$name: proving and building the program; from nothing this takes some minutes" >&2
    # an older one must not pass for what this run builds
    rm -f "$program" || fail "$program, which is older than its sources, could not be removed"
    local said
    # rt also runs what it has built, here on nothing, and ends with that run's status: whether the program is there tells how the build went
    said=$(cd "$root/crates/$name" && rt run 2>&1)
    if [ ! -x "$program" ]; then
        printf '%s\n' "$said" | tail -n 20 >&2
        fail "the program could not be built"
    fi
}

# Prints the usage and why the command's arguments are no good.
misused() {
    usage >&2
    fail "$*"
}

# Prints the usage where it is asked for, or puts the command's arguments into `arguments`, those behind -- where they begin with it.
take_options() {
    case ${1-} in
    -h | --help)
        usage
        exit 0
        ;;
    --) shift ;;
    -?*) misused "no such option: $1" ;;
    esac
    arguments=("$@")
}

check_file() {
    [ -e "$1" ] || fail "$1: no such file"
    [ ! -d "$1" ] || fail "$1: a directory"
    [ -r "$1" ] || fail "$1: not readable"
}

# Makes the FILE that the command's arguments name its standard input, where they name one.
take_input() {
    take_options "$@"
    set -- ${arguments[@]+"${arguments[@]}"}
    [ $# -le 1 ] || misused "one FILE at a time"
    if [ $# -eq 1 ]; then
        check_file "$1"
        exec <"$1" || fail "$1: not readable"
    elif ! { : 3<&0; } 2>/dev/null; then
        # the program would read from the pipe that it writes to
        fail "standard input is closed"
    elif [ -d /dev/stdin ]; then
        fail "standard input: a directory"
    fi
}

# Puts what the program prints for these arguments into `printed`, without the line end behind it.
run_program() {
    is_built || build </dev/null
    printed=$("$program" "$@") || fail "the program could not be run"
}

# Prints what the program printed, with the line end behind it.
show_printed() {
    printf '%s\n' "$printed" || fail "what the program printed could not be written"
}
