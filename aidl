#!/bin/sh
# Runs the program on the arguments, in the caller's folder. What is printed and the exit are the program's own; standard error says what an
# odd exit means, and which folder isn't there. Without arguments, or with --help or --version, it prints the commands. Where the program wasn't
# proved of the sources and by the kit that are there, it is built first, and standard error names each crate that is proved; a build that was cut
# off goes on where it was, if the kit keeps what it has proved. Exit 9 where the build fails, with its messages on standard error.
top=$(CDPATH='' cd -- "$(dirname -- "$(readlink -f -- "$0")")" && pwd) || exit 9
name=aidl kept=aidl
. "$top/tools/scripts.sh" || exit 9

# Copies the sources into a folder. `rt ci` takes it for the top of a repository by its .git, wherever it stands.
copy() (
    mkdir "$1" "$1/.git" && cd "$top" && sources '%p\n' | xargs -d '\n' cp -P --parents -t "$1" && lines_below >"$1/crates.txt"
)

# Says of each crate that the log tells as proved which of so many it is, those counted that were proved before.
tell() {
    count=0
    sed -un 's/^rt: \([a-z0-9_]*\) \(proved\)$/\1 \2/p; s/^rt: \([a-z0-9_]*\) is \(kept\):.*/\1 \2/p' | while read -r crate how; do
        count=$((count + 1))
        [ "$how" = kept ] || say "proved $crate, $count of $1"
    done
}

# Proves a copy of the sources, the longest row of crates first and each by the processors that are idle, and keeps the program that is made there.
build() {
    command -v rt >/dev/null || { say "there is no rt on the path: it is bin/rt of the Rattle kit (README.md, \"A look in two minutes\")"; exit 9; }
    find_place
    if [ -x "$place/$kept" ] && [ ! -f "$place/$kept.of" ]; then
        say "nothing says what $place/$kept was made of, as after rt ci alone: it is made again, of what the kit has kept where the sources are the same"
    fi
    say "building first, crate by crate; README.md says how long that takes, and what is proved is kept if it is cut off"
    make_room
    now=$(state)
    copy "$room/copy" && : >"$room/log" || exit 9
    # shellcheck disable=SC2016
    start sh -c 'cd "$1/copy" && TMPDIR=$1/temporary exec rt ci </dev/null >"$1/log" 2>&1' sh "$room"
    tail -n +1 -s 0.2 -f --pid=$running "$room/log" | tell "$(wc -l <"$room/copy/crates.txt")" &
    telling=$!
    wait $running || { cat "$room/log" >&2; exit 9; }
    running=''
    wait $telling
    keep_program "$room/copy/crates/aidl/out/aidl" || exit 9
    clean
}

# What an exit means, and its usual causes.
explain_exit() {
    case $1 in
        2) explain_words "$2" ;;
        3) say "a call to the file system failed: a folder where a file is wanted, no right to read or write, a link or a fifo below a folder, a file name that isn't UTF-8, a full disk" ;;
        4) say "printing failed: a closed pipe or a full disk; what was printed is cut off" ;;
        5) say "out of memory: a large input, or a bound on memory (ulimit -v, that of a job); what was printed may be cut off" ;;
        6) say "a parcel couldn't be carried: the program's own link passes every parcel on, so that isn't to be expected" ;;
        7) say "a limit was passed, the one that is printed: split the tree or the file; docs/PROFILE.md has all limits" ;;
        8) say "the command line couldn't be read: it has to be UTF-8" ;;
    esac
}

# Says of a folder that is to be read that it isn't there.
want_folder() {
    [ -d "$1" ] || say "there is no folder $1; it is read as an empty one, and that is no fault"
}

# The same of each folder that the arguments of a command name.
want_folders() {
    case $1 in
        check | dump | freeze | verify | rehash | replay | ask) want_folder "$2" ;;
        judge | witness) want_folder "$2"; want_folder "$3" ;;
        run)
            shift
            while [ "${1#--}" != "$1" ]; do shift; done
            want_folder "$1"
            want_folder "$2"
            ;;
        decode | encode | explain)
            [ "$2" != --lenient ] || shift
            [ "$2" != --tree ] || want_folder "$3"
            ;;
    esac
}

if asks_help "$@"; then
    help "It answers by the program that was proved of these sources, and proves it first where it wasn't." "${2-}"
    exit
fi
find_program || build
run "$@"
[ $status = 2 ] || want_folders "$@"
explain_exit $status "$1"
exit $status
