# Tries running trees, and prints what comes of them. `trial.sh PROGRAM`: the program under trial. The script is a service of a tree of that
# program, which it ends when it is done.
# Signals that are ignored by whoever runs this have their default again: a shell can't do that by itself.
[ "$2" = again ] || exec env --default-signal=INT,HUP,TERM sh "$0" "$1" again
program=$1
scripts=$PWD outer=$PWD/socket server=
trial=$(mktemp -d) || exit 1
trap leave EXIT
trap 'exit 1' INT TERM HUP
newline='
'

# Whether a process is a child of this shell, which hasn't waited for it: only then its number is no other process's.
is_child() { [ "$(cut -d ' ' -f 4 "/proc/$1/stat" 2>/dev/null)" = $$ ]; }

# Ends what a trial that stops in the middle leaves: a server in order, and then whatever child there is. Then the tree ends whose service it is.
leave() {
    trap '' TERM
    is_child "$server" && client svscanctl -t >/dev/null 2>&1 && soon has_ended "$server"
    for place in /proc/[0-9]*; do
        is_child "${place#/proc/}" && kill "${place#/proc/}"
    done 2>/dev/null
    rm -rf "$trial"
    "$program" svscanctl "$outer" -t
}

# Begins a stage: a folder with a scan directory, a socket and a record.
stage() {
    root=$trial/$1 socket=$trial/$1/socket record=$trial/$1/record
    mkdir -p "$root/services" && cd "$root/services" || exit 1
}

# write SERVICE FILE SCRIPT: writes a program of a service.
write() {
    mkdir -p "$1"
    printf '#!/bin/sh\n%s\n' "$3" >"$1/$2"
    chmod 755 "$1/$2"
}

# The lines that were written, in one line.
joined() { sed '/^$/d' | paste -s -d ' ' -; }

# The lines that were written, without the line for people behind one that tells of a fault.
without_hints() {
    awk -F : 'told != "" && told == $1 { told = ""; next }
        { told = /^[a-z0-9_-]+: (usage|refused [A-Za-z]+|busy|socket|program|write|no memory|no shell|directory|record|thread|clock|signals)$/ ? $1 : "" }
        1'
}

# Runs a command: its status, and what it wrote.
outcome() {
    written=$("$@" </dev/null 2>&1)
    printf '%s\n' $? "$written" | without_hints | joined
}

# The words of a client, the socket's path behind the first.
client() {
    tool=$1
    shift
    "$program" "$tool" "$socket" "$@"
}

say() { printf '%s: %s\n' "$1" "$2"; }

# Runs a client, and prints what came of it.
tell() { say "$*" "$(outcome client "$@")"; }

# The clients of the lines that are read, one after the other.
tell_each() {
    while read -r words; do
        tell $words
    done
}

# Runs a command, and prints whether it succeeds.
whether() {
    what=$1
    shift
    if "$@" >/dev/null 2>&1; then say "$what" true; else say "$what" false; fi
}

# Whether a command succeeds within 20 seconds.
soon() {
    for try in $(seq 400); do
        "$@" >/dev/null 2>&1 && return
        sleep 0.05
    done
    false
}

# Whether a client comes to this outcome: the outcome first, and then its words.
comes_to() { [ "$(shift; outcome client "$@")" = "$1" ]; }

# Begins to run a server in the place of the shell, with these words behind the socket.
svscan() { exec "$program" svscan "$root/services" "$socket" "$@"; }

# Starts a server with these words, and waits until it answers. What it tells on standard error comes in the file `errors`.
start() {
    svscan "$@" >/dev/null 2>"$root/errors" &
    server=$!
    soon answers || exit 1
}

answers() { "$program" connect "$socket" </dev/null; }

is_running() { ! has_ended "$1"; }

# Whether a child of this shell has ended.
has_ended() { ! is_child "$1" || [ "$(cut -d ' ' -f 3 "/proc/$1/stat" 2>/dev/null)" = Z ]; }

# The status of a server that ends by itself, or -1 where it doesn't in time. It is gone afterwards.
end_of() {
    if soon has_ended "$1"; then
        wait "$1"
        status=$?
    else
        is_child "$1" && kill -9 "$1"
        status=-1
    fi
}

# Ends the server, and prints its status.
end() {
    tell svscanctl -t
    end_of "$server"
    say svscan $status
}

# The descriptors, the threads and the zombies of the server.
census() {
    ls "/proc/$server/fd" | wc -l
    ls "/proc/$server/task" | wc -l
    grep -l "^[0-9]* (.*) Z $server " /proc/[0-9]*/stat 2>/dev/null | wc -l
}

# What the server has once that stays the same for 300 milliseconds, and it has no zombie.
census_at_rest() {
    now=$(census | joined)
    for try in $(seq 100); do
        before=$now
        sleep 0.3
        now=$(census | joined)
        case $now in "$before") case $now in *' 0') break ;; esac ;; esac
    done
    echo $now
}

# Whether the server has no more than this, and no zombie: three numbers.
has_at_most() {
    set -- $(census) "$@"
    [ "$1" -le "$4" ] && [ "$2" -le "$5" ] && [ "$3" = 0 ]
}

# Opens a connection. What is written to NAME.in is sent, and what comes is in NAME.out. It stays until it is closed, or the server ends it.
open() {
    mkfifo "$root/$1.in"
    "$program" connect "$socket" <>"$root/$1.in" >"$root/$1.out" &
    eval "client_$1=$!"
}

# Closes a connection.
close() {
    eval "client=\$client_$1"
    is_child "$client" && kill "$client"
    wait "$client" 2>/dev/null
    rm "$root/$1.in"
}

# Sends a request on a connection.
request() { printf '%s\n' "$2" >"$root/$1.in"; }

# Whether so many replies have come on a connection: an empty line ends each.
has_replies() { [ "$(grep -c '^$' "$root/$1.out")" -ge "$2" ]; }

# Sends a request on a new connection, and waits for its reply.
ask() {
    request "$1" "$2"
    soon has_replies "$1" 1
}

for part in replay lives connections crowd endings handovers starts records scans waiting looking faults usage checks; do
    . "$scripts/$part.sh"
done
