# shellcheck shell=sh disable=SC2034,SC2154,SC2064
# What the scripts `aidl` and `try` share. They source this file once `top` is the repository's folder, `name`
# their own name and `kept` the name under which they keep a program.

cache=${XDG_CACHE_HOME:-${HOME:-/nonexistent}/.cache}/leyomuvain/$(printf '%s' "$top" | cksum | tr ' ' -)
room='' running='' place=''

say() {
    printf '%s: %s\n' "$name" "$*" >&2
}

# The commands: the arguments of each, and what it answers.
commands() {
    cat <<'END'
check TREE|the faults of a tree
judge OLD NEW|the breaking changes from OLD to NEW
witness OLD NEW|the same, each with a call that shows it
freeze TREE API|writes the next version
verify API|whether the versions are as they were frozen
rehash API|brings older hashes to recipe two
dump TREE OUT|writes the canonical dump
run [--trace] [--lenient] CLIENT SERVER CALLS|calls between two versions
decode [--lenient] [--tree TREE] TYPES FILE|the values of a parcel
encode [--tree TREE] TYPES FILE|the bytes of values
explain [--tree TREE] TYPES FILE|the items of a parcel, each with its place
replay SERVER INTERFACE TRACE|the requests of a trace, answered again
ask API N INTERFACE CODE FILE|one request to a frozen version
make N OUT|two trees and calls to try all on
END
}

# The commands as a table.
table() {
    commands | awk -F'|' '{ printf "  %-46s %s\n", $1, $2 }'
}

# The line of a command in the table, if there is one of this name.
command_of() {
    commands | NAME=$1 awk -F'[ |]' '$1 == ENVIRON["NAME"]'
}

# Prints the help: all commands, or, of the command that is named, what docs/PROGRAM.md says first.
help() {
    found=$(command_of "${2-}")
    if [ -n "${2-}" ] && [ -z "$found" ]; then
        explain_words "$2"
        exit 2
    fi
    if [ -n "$found" ]; then
        printf '%s %s\n%s\n\n' "$name" "${found%|*}" "${found#*|}"
        COMMAND="**\`$2\`**" awk 'index($0, ENVIRON["COMMAND"]) == 1, $0 == ""' "$top/docs/PROGRAM.md" | tr '\n' ' ' |
            sed 's/\*\*//g; s/`//g; s/\[\([^]]*\)\]([^)]*)/\1/g; s/ Defined in .*//; s/ Refused[^.]*: *$//; s/ *$//' | sed -E 's/^(.{0,480}[.:;]) .*/\1/' | fold -s -w 120
        printf '\n\n%s\n' "docs/PROGRAM.md says what is refused, and docs/CI.md what each exit means."
    else
        printf '%s of leyomuvain, revision %s. %s\n\n' "$name" "$(git -C "$top" describe --always --dirty 2>/dev/null || echo unknown)" "$1"
        table
        printf '\n%s\n' "Exits: 0 done or yes, 1 a negative verdict, 2 not a command, 7 a limit, 9 not built; docs/CI.md has all. --help COMMAND says more."
    fi
}

# Whether the arguments ask for the help.
asks_help() {
    [ "$#" = 0 ] && return
    case $1 in
        --help) [ "$#" -le 2 ] ;;
        --version) [ "$#" = 1 ] ;;
        *) false ;;
    esac
}

# Says how the command of the arguments is called, after exit 2.
explain_words() {
    found=$(command_of "${1-}")
    if [ -z "$found" ]; then
        say "there is no command ${1-}; docs/PROGRAM.md says more of these:" && table >&2
        return
    fi
    found=${found%|*}
    say "$1 takes ${found#* }; a path is neither empty nor does it begin with --"
    [ "${found% TYPES FILE}" = "$found" ] || say "TYPES is names between commas, in quotes: 'int,String[],a.R?'; those of a tree need --tree TREE in front"
}

# The lines of crates.txt that the program stands on, and its own.
lines_below() {
    awk -F: '
        function take(name,    names, count, at) {
            if (!(name in below) || name in taken) return
            taken[name]
            print name ":" below[name]
            count = split(below[name], names, " ")
            for (at = 1; at <= count; at++) take(names[at])
        }
        { sub(/#.*/, "") }
        NF > 1 { below[$1] = $2 }
        END { take("aidl") }' "$top/crates.txt"
}

# The files that the program is proved and built from, below the repository's folder, each in find's format. What was built, edits that the proofs
# have to refuse, and files of editors are none of them.
sources() {
    format=$1
    set -- crates.txt HANDLES
    for crate in $(lines_below | cut -d: -f1); do
        set -- "$@" "crates/$crate"
    done
    find "$@" \( -name out -o -name must-fail -o -name must-fail-by-hand \) -prune -o ! -name '.*' \( -type f -o -type l \) \
        \( -name '*.rt' -o -name '*.antt' -o -name '*.[ch]' -o -name crates.txt -o -name HANDLES -o -path 'crates/aidl/data/*' \
        -o -path 'crates/aidl/args' -o -path 'crates/aidl/std*' -o -path 'crates/aidl/status' \) -printf "$format"
}

# The sources in one number: their names, lengths and times of change, which nobody sets, and which no copy has alike.
state() (
    cd "$top" && printf 'sources %s\n' "$(sources '%p %s %C@\n' | LC_ALL=C sort | cksum)"
)

# The kit on the path: the line by which it is known, its path, and length and time of change of its first file. Nothing where there is none.
kit() {
    rt=$(command -v rt) && rt=$(readlink -f -- "$rt") || return
    printf 'kit %s %s\n' "$(stat -c '%n %s %.9Z' "$rt")" "$(cat "${rt%/*/*}/KIT-ID" 2>/dev/null)"
}

# The bytes of a program in one number.
sum_of() {
    printf 'program %s\n' "$(cksum <"$1")"
}

# Finds the program that was kept and was made of these sources, and by this kit, or by whichever where none is on the path: `program`.
find_program() {
    now=$(state) kit=$(kit)
    for at in "$top/crates/aidl/out" "$cache"; do
        program=$at/$kept
        if [ -x "$program" ] && [ -f "$program.of" ]; then
            { IFS= read -r sources; IFS= read -r made; IFS= read -r by; } <"$program.of"
            [ "$sources" = "$now" ] && [ "${kit:-$by}" = "$by" ] && [ "$made" = "$(sum_of "$program")" ] && return
        fi
    done
    return 1
}

# Finds the folder in which a program can be kept: `place`, the user's cache where the checkout can't be written.
find_place() {
    for place in "$top/crates/aidl/out" "$cache"; do
        mkdir -p "$place" 2>/dev/null && (: >"$place/$kept.$$") 2>/dev/null && rm -f "$place/$kept.$$" && break
        [ "$place" != "$cache" ] || { say "neither $top/crates/aidl/out nor $cache can be written, so a program couldn't be kept"; exit 9; }
        say "$place can't be written, so the program is kept in $cache"
    done
}

# Keeps a program, with what it was made of: whole or not at all. Says so where a source was changed meanwhile.
keep_program() {
    printf '%s\n' "$now" "$(sum_of "$1")" "$kit" >"$room/of" && mv "$1" "$place/$kept.$$" && mv "$place/$kept.$$" "$place/$kept" &&
        cp "$room/of" "$place/$kept.of.$$" && mv "$place/$kept.of.$$" "$place/$kept.of" || return
    program=$place/$kept
    [ "$now" = "$(state)" ] || say "a source was changed during the build: this answer is by the sources as they were when it began, the next one by those that are there"
}

# Makes the room, which is gone when the script ends, however it does.
make_room() {
    room=$(mktemp -d) && mkdir "$room/temporary" && chmod 711 "$room" "$room/temporary" || exit 9
    trap clean EXIT
    trap 'exit 9' HUP INT QUIT TERM
}

# Starts a command in a session of its own: `running`. It ends when the script does, with all that it has started.
start() {
    setsid "$@" &
    running=$!
}

# Ends what was started, and removes the room and what was half kept.
clean() {
    trap '' HUP INT QUIT TERM
    if [ -n "$running" ]; then
        kill -s TERM -- "-$running" 2>/dev/null || kill -s TERM "$running" 2>/dev/null
        for _ in 1 2 3 4 5 6 7 8 9 10; do
            kill -s 0 "$running" 2>/dev/null || break
            sleep 0.1
        done
        kill -s KILL -- "-$running" 2>/dev/null
    fi
    rm -rf "$room" "$place/$kept.$$" "$place/$kept.of.$$"
    trap - EXIT HUP INT QUIT TERM
}

# Runs the program on the arguments, over the caller's standard input. Its exit is `status`; it ends when the script does.
run() {
    if (exec 3<&0) 2>/dev/null; then exec 3<&0; else exec 3</dev/null; fi
    "$program" "$@" <&3 3<&- &
    child=$!
    exec 3<&-
    for signal in HUP:1 INT:2 QUIT:3 TERM:15; do
        trap "kill -s TERM $child 2>/dev/null; wait $child; exit $((128 + ${signal#*:}))" "${signal%:*}"
    done
    wait $child
    status=$?
    trap - HUP INT QUIT TERM
}
