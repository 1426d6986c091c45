#!/bin/sh
# The first process of a container: starts the tree, and ends it in order when the container is to stop.
#
#   entry.sh DIRECTORY SOCKET [RECORD] [-- [CMD ARGS..]]
#
# svscan itself handles no signal. TERM, INT and QUIT end the tree as `svscanctl -t` does, and the script ends with the status of svscan,
# however often they come. HUP scans as `svscanctl -h` does.
#
# CMD runs as the main service beside those of DIRECTORY, once, in the working directory and environment of this script. A folder below
# ${TMPDIR:-/tmp} then has links to what is in DIRECTORY, and is gone at the end; HUP makes them anew. The name of the service is MAIN, or
# `main`. CMD that is not there ends with 127, and one that can't be executed with 126.
#
# In the environment:
#   S6_TREE   the program; services find it there, and SOCKET beside it, both as absolute paths
#   GRACE     how many seconds whoever stops the container leaves before it kills: 10 where nothing is said, at most 9999999. Two seconds
#             before they are over, all that svscan started and that still lives gets SIGKILL, so that svscan ends and writes RECORD. If
#             svscan itself is there 0.75 seconds before, it gets SIGKILL too. 0: never
#   MAIN      a service that is not started again once it is up. When it is down and its `finish` is done, the tree ends as by TERM, and the
#             script ends with the exit code of that service, or with 128 and the number of the signal that killed it; with 126 if it can't
#             be started, with 100 if there is no such service. If TERM, INT or QUIT came before, it ends with the status of svscan
is_ending=
trap 'is_ending=yes' TERM INT QUIT
trap ':' HUP

# fail STATUS WORDS
fail() {
    echo "entry.sh: $2" >&2
    exit "$1"
}

absolute() {
    case $1 in
    /*) printf '%s' "$1" ;;
    *) printf '%s/%s' "$PWD" "$1" ;;
    esac
}

grace=${GRACE:-10}
case $grace in
*[!0-9]* | 0?* | ????????*) fail 100 "GRACE=$grace is no number of seconds: digits, at most 9999999, and 0 for never" ;;
esac
main=${MAIN:-}
case $main in
*[!A-Za-z0-9._@-]* | [.-]*) fail 100 "MAIN=$main is no name of a service: A-Z a-z 0-9 . _ @ -, and no dot or dash in front" ;;
esac
usage="entry.sh DIRECTORY SOCKET [RECORD] [-- [CMD ARGS..]]"
[ $# -ge 2 ] && [ "$1" != -- ] && [ "$2" != -- ] || fail 100 "wants DIRECTORY and SOCKET: $usage"
[ -n "$1" ] || fail 100 "DIRECTORY is an empty word: $usage"
[ -n "$2" ] || fail 100 "SOCKET is an empty word: $usage"
directory=$(absolute "$1")
SOCKET=$(absolute "$2")
record=
shift 2
if [ $# -gt 0 ] && [ "$1" != -- ]; then
    [ -n "$1" ] || fail 100 "RECORD is an empty word: $usage"
    record=$(absolute "$1")
    shift
fi
[ $# -eq 0 ] || [ "$1" = -- ] || fail 100 "'$1' is a word too many: $usage"
[ $# -eq 0 ] || shift
S6_TREE=${S6_TREE:-s6_tree}
case $S6_TREE in
*/*) [ -x "$S6_TREE" ] || fail 111 "S6_TREE=$S6_TREE is no program" ;;
*)
    place=$(command -v "$S6_TREE") || fail 111 "no program $S6_TREE in PATH: set S6_TREE"
    S6_TREE=$place
    ;;
esac
S6_TREE=$(absolute "$S6_TREE")
export S6_TREE SOCKET
[ -r "/proc/$$/status" ] || fail 111 "/proc/$$/status can't be read: mount /proc, by which GRACE is kept and MAIN is watched"

# Sets `parent` to the parent of a process, or to nothing where there is no such process.
look_at() {
    parent=
    while read -r field value; do
        if [ "$field" = PPid: ]; then
            parent=$value
            return
        fi
    done 2>/dev/null <"/proc/$1/status"
}

# Whether svscan is there. Its number is its own as long as its parent is this script.
is_running() {
    look_at "$server"
    [ "$parent" = "$$" ]
}

# for_children PARENT COMMAND: runs it with each child of PARENT. A number is looked at just before.
for_children() {
    for place in /proc/[0-9]*; do
        look_at "${place#/proc/}"
        if [ "$parent" = "$1" ] && [ "${place#/proc/}" -gt 1 ]; then
            $2 "${place#/proc/}"
        fi
    done
}

# Sends SIGKILL to a process and its children. It is stopped first, so that it starts no more.
kill_with_children() {
    kill -STOP "$1"
    (for_children "$1" "kill -KILL")
    kill -KILL "$1"
} 2>/dev/null

# Tells svscan to end, until it was told. It can't be told before it has its socket, while all slots are taken, or when it is stopped.
tell_end() {
    trap '' TERM INT QUIT HUP
    until words=$("$S6_TREE" svscanctl "$SOCKET" -t 2>&1) || [ "$words" = "svscanctl: refused Closing" ]; do
        sleep 0.2
    done
}

# The two that keep GRACE.
kill_services() {
    trap '' TERM INT QUIT HUP
    [ "$grace" -le 2 ] || sleep "$((grace - 2))"
    while is_running; do
        for_children "$server" "kill -KILL" 2>/dev/null
        sleep 0.2
    done
}
kill_svscan() {
    trap '' TERM INT QUIT HUP
    sleep "$((grace - 1)).25"
    ! is_running || kill_with_children "$server"
}

# Ends the tree, beside the script, which waits for svscan.
begin_end() {
    [ -z "$is_told" ] || return 0
    is_told=yes
    tell_end &
    if [ "$grace" -gt 0 ]; then
        kill_services &
        kill_svscan &
    fi
}

# Makes a link to each entry of DIRECTORY, and removes those to what is no more.
make_links() {
    for place in "$services"/*; do
        [ -e "$place" ] || rm -f -- "$place"
    done
    ln -s -- "$directory"/* "$services" 2>/dev/null
    [ ! -L "$services/*" ] || rm -f -- "$services/*"
    [ ! -e "$directory/$main" ] || {
        echo "entry.sh: $directory/$main has the name of the service of CMD: set MAIN to another name" >&2
        return 1
    }
}

scan() {
    trap '' TERM INT QUIT HUP
    [ "$services" = "$directory" ] || make_links
    exec "$S6_TREE" svscanctl "$SOCKET" -h
}

# Watches MAIN, and ends with its status. svscan answers no sooner than it has its socket. `letter` starts CMD, and has MAIN stay down. What has
# `kind` in its row is to start by itself, or was started here.
watch() {
    trap '' TERM INT QUIT HUP
    tries=0
    while is_running; do
        words=$("$S6_TREE" svc "$SOCKET" "-$letter" "$main" 2>&1)
        case $?$words in
        0*) letter=O ;;
        100* | *" refused NoService"*) main_ended 100 "MAIN=$main is no service of $directory" ;;
        *)
            sleep 0.2
            continue
            ;;
        esac
        row=$("$S6_TREE" list "$SOCKET" --json "$main" 2>/dev/null)
        case $row in
        *'"up":true'* | *'"state":"finishing"'*) wait_main -D ;;
        # It was told `x`, or the tree ends.
        *'"state":"gone"'* | *'"wantedup":true'* | "") sleep 0.2 ;;
        *"$kind"*'"exitcode":null,"signal":null'*)
            # It is being started, unless that takes seconds.
            tries=$((tries + 1))
            [ "$tries" -le 15 ] || main_ended 126 "MAIN=$main can't be started"
            sleep 0.2
            ;;
        # It has a file `down`.
        *'"exitcode":null,"signal":null'*) wait_main -u ;;
        *'"exitcode":null'*)
            code=${row#*'"signal":'}
            main_ended $((128 + ${code%%,*}))
            ;;
        *)
            code=${row#*'"exitcode":'}
            main_ended "${code%%,*}"
            ;;
        esac
    done
    exit 111
}

# Ten others may have all places for waits: MAIN is looked at each 20 seconds all the same.
wait_main() {
    "$S6_TREE" svwait "$SOCKET" "$@" -t 20000 "$main" 2>/dev/null || sleep 0.2
}

# main_ended STATUS [WORDS]: URG tells the script, which then waits for this status. Nobody else sends URG.
main_ended() {
    [ -z "$2" ] || echo "entry.sh: $2" >&2
    kill -URG $$
    exit "$1"
}

# A word for a shell to read.
quote() {
    printf '%s\n' "$1" | LC_ALL=C sed "s/'/'\\\\''/g; 1s/^/'/; \$s/\$/'/"
}

# The script of CMD is read by `run`, a link to the shell, so that it needs no right of execution: a folder for what is temporary may give none.
make_main() {
    mkdir "$services/$main" && : >"$services/$main/down" && ln -s /bin/sh "$services/$main/run" && {
        printf 'cd -- %s || exit 111\nunset OLDPWD\nexec' "$(quote "$PWD")"
        for word in "$@"; do
            printf ' %s' "$(quote "$word")"
        done
        echo
    } >"$services/$main/$main"
}

services=$directory
folder=
letter=O
kind='"normallyup":true'
if [ $# -gt 0 ]; then
    main=${main:-main}
    letter=o
    kind='"normallyup":false'
    [ -d "$directory" ] && [ -r "$directory" ] || fail 111 "$directory is no folder that can be read"
    folder=$(mktemp -d "${TMPDIR:-/tmp}/entry.XXXXXX") || fail 111 "no folder for CMD can be made below ${TMPDIR:-/tmp}: set TMPDIR"
    trap 'rm -rf -- "$folder"' EXIT
    services=$folder/services
    mkdir "$services" && make_links || exit 100
    make_main "$@" || fail 111 "no service for CMD can be made in $folder"
fi

# A shell has what runs in its background ignore INT and QUIT, and services would inherit that. GNU's env sets them back; then the
# tree is in a session of its own, where a terminal's Ctrl-C doesn't reach it.
set -- "$S6_TREE" svscan "$services" "$SOCKET" ${record:+"$record"}
if env --default-signal=INT,QUIT setsid true 2>/dev/null; then
    setsid env --default-signal=INT,QUIT "$@" &
else
    "$@" &
fi
server=$!
is_told=
is_main_over=
trap 'woken=yes; begin_end' TERM INT QUIT
trap 'woken=yes; scan &' HUP
[ -z "$is_ending" ] || begin_end
if [ -n "$main" ]; then
    trap 'woken=yes; [ -n "$is_told" ] || is_main_over=yes; begin_end' URG
    watch &
    watcher=$!
fi

# Sets `status` to that of a child. A signal ends a wait early, and it is waited for again. 127: it was waited for before, when a signal
# came at the same time.
wait_for() {
    status=127
    while :; do
        woken=
        wait "$1"
        code=$?
        [ "$code" -eq 127 ] || status=$code
        if [ -z "$woken" ] || [ "$code" -eq 127 ]; then
            return
        fi
    done
}
wait_for "$server"
[ -z "$is_main_over" ] || wait_for "$watcher"
# What still asks svscan, or waits for it, ends with the script.
trap '' TERM INT QUIT HUP URG
for_children $$ kill_with_children
exit "$status"
