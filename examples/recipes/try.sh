#!/bin/sh
# try.sh PROGRAM: runs each recipe of docs/RECIPES.md on a tree of its own, and prints a line for each: `ok NAME`, `failed NAME: WHY`, or
# `skipped NAME: WHY` where the system lacks what it needs, and last how many. Status 0 if none failed. All that is written lies in a folder of
# its own below /tmp, which is gone afterwards, and only trees that it started are told to end.
[ $# -eq 1 ] && [ -x "$1" ] || {
    echo "usage: try.sh PROGRAM" >&2
    exit 100
}
here=$(CDPATH='' cd -- "$(dirname -- "$0")" && pwd) || exit 111
S6_TREE=$(CDPATH='' cd -- "$(dirname -- "$1")" && pwd)/${1##*/}
t=$S6_TREE
GRACE=8
folder=$(mktemp -d /tmp/recipes.XXXXXX) || exit 111
export S6_TREE GRACE
entry=
# What ends it where a trial stops half way.
end_signal=TERM
held=0
failed=0
skipped=
trap 'stop_tree; rm -rf "$folder"' EXIT
trap 'exit 130' INT TERM

# Starts a tree of a folder's services, and waits until it serves.
start_tree() {
    name=$1
    place=$folder/$name
    SOCKET=$place/.socket
    export SOCKET
    rm -rf "$place" && cp -R "$here/$name" "$place" || exit 111
    services=$place/services
    [ -d "$services" ] || services=$place
    sh "$here/../container/entry.sh" "$services" "$SOCKET" "$place/.record" >"$place/.out" 2>&1 &
    entry=$!
    soon grep -q '^svscan: serving' "$place/.out"
}

# Ends the tree, if what was started is still a child of this script.
stop_tree() {
    [ -z "$entry" ] || {
        ! grep -qs "^PPid:[[:space:]]*$$\$" "/proc/$entry/status" || kill -"$end_signal" "$entry"
        wait "$entry"
    }
    entry=
    end_signal=TERM
}

# soon COMMAND..: whether it holds within twenty seconds.
soon() {
    left=100
    until "$@" >/dev/null 2>&1; do
        [ "$left" -gt 0 ] || return 1
        left=$((left - 1))
        sleep 0.2
    done
}

is() { [ "$1" = "$2" ]; }
state() { "$t" list "$SOCKET" "$1" | awk 'NR == 2 { print $2 }'; }
is_state() { is "$(state "$1")" "$2"; }
lines() { grep -c "$1" "$2" 2>/dev/null; }
pid() { "$t" svstat "$SOCKET" -o pid "$1"; }

# recipe NAME COMMAND..: runs a recipe's trial; a line that it prints is why it failed.
recipe() {
    what=$1
    shift
    if "$@" >"$folder/why" 2>&1; then
        echo "ok $what"
        held=$((held + 1))
    else
        echo "failed $what: $(tr '\n' ' ' <"$folder/why")"
        failed=$((failed + 1))
    fi
    stop_tree
}

skip() {
    echo "skipped $1: $2"
    skipped="$skipped $1"
}
has() { command -v "$1" >/dev/null; }

# try_logged FILES [WORDS]. Each trial of logs: a line is there, behind these words, the daemon dies and the next one's line is there, the reader dies
# and nothing of it is lost, the tree ends and the daemon's last line is there. s6-log and svlogd that were killed go on in a new file.
try_logged() {
    log=$place/$1
    starts="$2app: starts"
    has_lines() { [ "$(cat $log 2>/dev/null | grep -c "$1")" -eq "$2" ]; }
    soon has_lines "$starts" 1 || { echo "no first line in $1"; return 1; }
    before=$(pid app-log)
    "$t" svc "$SOCKET" -k app
    soon has_lines "$starts" 2 || { echo "no line of the second daemon"; return 1; }
    is "$(pid app-log)" "$before" || { echo "the reader died with the daemon"; return 1; }
    "$t" svlisten "$SOCKET" -D -t 20000 app-log -- "$t" svc "$SOCKET" -d app-log || return
    "$t" svlisten "$SOCKET" -r -t 20000 app -- "$t" svc "$SOCKET" -k app || return
    "$t" svc "$SOCKET" -u app-log
    soon has_lines "$starts" 3 || { echo "a line was lost while the reader was down"; return 1; }
    kill -TERM "$entry"
    wait "$entry"
    entry=
    has_lines "$2app: ends" 1 || { echo "the last line was lost"; return 1; }
}
start_tree logged
recipe logged try_logged app-log/current
start_tree logged-name
recipe logged-name try_logged .out 'app: '
if has s6-log; then
    start_tree logged-s6-log
    recipe logged-s6-log try_logged 'app-log/log/*'
else skip logged-s6-log "no s6-log"; fi
if has svlogd; then
    start_tree logged-svlogd
    recipe logged-svlogd try_logged 'app-log/log/*'
else skip logged-svlogd "no svlogd"; fi

try_user() {
    "$t" svwait "$SOCKET" -U -t 20000 app || return
    head -n 2 "$place/app/said" | tr '\n' ' ' | grep -qx 'nobody 256 ' || { cat "$place/app/said"; return 1; }
    ! grep -qE '^(SOCKET|S6_TREE)=' "$place/app/said" || { echo "the environment went through"; return 1; }
    is "$(awk '/^Uid:/ { print $3 }' "/proc/$(pid app)/status")" "$(id -u nobody)"
}
if [ "$(id -u)" = 0 ] && has setpriv; then
    start_tree user
    recipe user try_user
else skip user "needs root, and setpriv"; fi

try_session() {
    "$t" svwait "$SOCKET" -u -t 20000 app || return
    twice() { [ "$("$t" replay --story <"$place/.record" | grep -c 'app died, signal TERM')" -ge 2 ]; }
    recorded_twice() { "$t" record "$SOCKET" && twice; }
    soon recorded_twice || { echo "it did not die twice, by its own signal"; return 1; }
}
if has setsid; then
    start_tree session
    recipe session try_session
else skip session "no setsid"; fi

try_waiting() {
    "$t" svwait "$SOCKET" -U -t 20000 db || return
    "$t" svwait "$SOCKET" -u -a -t 20000 web on-file on-port || return
    # What a service executes once its wait is over.
    sleeps() { grep -q sleep "/proc/$(pid "$1")/comm"; }
    for service in web on-file on-port; do
        soon sleeps "$service" || { echo "$service waits on"; return 1; }
    done
}
if has python3 && has bash; then
    start_tree waiting
    recipe waiting try_waiting
else skip waiting "no python3 or bash"; fi

try_polled() {
    "$t" svwait "$SOCKET" -u -t 20000 app || return
    ! "$t" svwait "$SOCKET" -U -t 1000 app || { echo "it is ready before it answers"; return 1; }
    : >"$place/app/data/answers"
    "$t" svwait "$SOCKET" -U -t 20000 app || return
    no_child() { ! grep -qs "^PPid:[[:space:]]*$(pid app)\$" /proc/[0-9]*/status; }
    soon no_child || { echo "the daemon has a child"; return 1; }
    rm "$place/app/data/answers"
    "$t" svlisten "$SOCKET" -r -t 20000 app -- "$t" svc "$SOCKET" -k app || return
    "$t" svlisten "$SOCKET" -D -t 20000 app -- "$t" svc "$SOCKET" -d app || return
    none_left() { ! readlink /proc/[0-9]*/cwd | grep -qxF "$place/app"; }
    soon none_left || { echo "what asks outlives the daemon"; return 1; }
}
start_tree polled
recipe polled try_polled

try_oneshot() {
    "$t" svwait "$SOCKET" -U -t 20000 database || return
    soon is_state web up || return
    is "$(lines made "$place/database/data/log")" 1
}
start_tree oneshot
recipe oneshot try_oneshot

try_give_up() {
    soon is_state app failed || { echo "it is $(state app)"; return 1; }
    is "$(cat "$place/app/told")" "app failed for good: its last exit code was 1"
}
start_tree give-up
recipe give-up try_give_up

try_timer() {
    three() { [ "$(lines done "$place/job/log")" -ge 3 ]; }
    soon three || return
    soon is_state job down
}
start_tree timer
recipe timer try_timer

try_health() {
    "$t" svwait "$SOCKET" -U -t 20000 app || return
    sh "$place/check.sh" app || { echo "a healthy one is told as ill"; return 1; }
    "$t" svlisten "$SOCKET" -D -t 20000 app -- "$t" svc "$SOCKET" -d app || return
    ! sh "$place/check.sh" app
}
start_tree health
recipe health try_health

try_prometheus() {
    soon is_state app failed || return
    "$t" list "$SOCKET" --json | python3 "$here/prometheus/metrics.py" >"$place/.metrics" || return
    grep -qx 's6_tree_exitcode{name="app"} 1' "$place/.metrics" &&
        grep -qx 's6_tree_state{name="app",state="failed"} 1' "$place/.metrics" && grep -qx 's6_tree_wanted_up{name="app"} 0' "$place/.metrics"
}
if has python3; then
    start_tree give-up
    recipe prometheus try_prometheus
else skip prometheus "no python3"; fi

# entry.sh as process 1 of a namespace, as in a container. What signals process 1 are services in it, and only where process 1 is entry.sh.
try_container() {
    place=$folder/container
    cp -R "$here/container" "$place"
    for signal in HUP TERM; do
        mkdir "$place/services/send-$signal" && : >"$place/services/send-$signal/down"
        {
            echo '#!/bin/sh'
            echo "grep -q entry.sh /proc/1/cmdline && kill -$signal 1"
            echo 'exec sleep infinity'
        } >"$place/services/send-$signal/run"
        chmod 755 "$place/services/send-$signal/run"
    done
    SOCKET=$place/socket
    unshare --pid --fork --mount-proc --kill-child sh "$here/../container/entry.sh" "$place/services" "$SOCKET" "$place/record" >"$place/out" 2>&1 &
    entry=$!
    # unshare passes no TERM on. Its own end ends all that is in its namespace.
    end_signal=KILL
    soon grep -q '^svscan: serving' "$place/out" || { cat "$place/out"; return 1; }
    "$t" svwait "$SOCKET" -U -t 20000 app || { echo "app isn't ready"; return 1; }
    mkdir "$place/services/late" && cp "$place/services/app/run" "$place/services/late/run"
    "$t" svc "$SOCKET" -u send-HUP || return
    soon is_state late up || { echo "HUP didn't scan"; return 1; }
    "$t" svc "$SOCKET" -u send-TERM || return
    wait "$entry"
    ended=$?
    entry=
    is "$ended" 0 || { echo "TERM: status $ended"; return 1; }
    "$t" replay --check <"$place/record" || { echo "the record is not legal"; return 1; }
}
# A shell can't trap a signal that was ignored when it began, as HUP is under nohup: the last bit of these.
if grep -q '^SigIgn:.*[13579bdf]$' /proc/$$/status; then
    skip container "HUP is ignored here"
elif unshare --pid --fork --mount-proc true 2>/dev/null; then
    recipe container try_container
else skip container "no namespaces for this user"; fi

# Whether a process has ended, though its parent may not know it yet.
has_ended() { ! grep -qs '^State:[[:space:]]*[^Z[:space:]]' "/proc/$1/status"; }

# start_entry WORDS..: starts entry.sh with the services of this trial's place, where `app` has the script APP.
start_entry() {
    place=$folder/entry
    SOCKET=$place/socket
    rm -rf "$place" && mkdir -p "$place/services/app" "$place/services/other" || return
    printf '#!/bin/sh\nexec sleep infinity\n' >"$place/services/other/run"
    printf '#!/bin/sh\n%s\n' "$APP" >"$place/services/app/run"
    chmod 755 "$place"/services/*/run
    env --default-signal=INT,QUIT sh "$here/../container/entry.sh" "$place/services" "$SOCKET" "$place/record" "$@" >"$place/out" 2>&1 &
    entry=$!
}

# ends_with STATUS [SIGNAL]: whether it ends so, within twenty seconds, and leaves nothing.
ends_with() {
    [ -z "$2" ] || kill -"$2" "$entry"
    soon has_ended "$entry" || { echo "entry.sh did not end"; return 1; }
    wait "$entry"
    ended=$?
    entry=
    is "$ended" "$1" || { echo "status $ended in place of $1: $(cat "$place/out")"; return 1; }
    ! grep -ls "$place" /proc/[0-9]*/cmdline || { echo "something is left"; return 1; }
}

# Ends what a trial of entry.sh left where it failed: whatever has a place of this trial among its words, or works there.
end_left() {
    for left in /proc/[0-9]*; do
        if grep -q "$folder/entry/" "$left/cmdline" || readlink "$left/cwd" | grep -q "^$folder/entry/"; then
            kill -KILL "${left#/proc/}"
        fi
    done 2>/dev/null
}

# The number of a process's parent, or nothing where there is no such process.
parent_of() {
    awk '/^PPid:/ { print $2 }' "/proc/$1/status" 2>/dev/null
}

try_grace() {
    export GRACE=3
    start_entry && soon "$t" svwait "$SOCKET" -u -t 5000 app other || return
    other=$(pid other)
    server=$(parent_of "$other")
    # svscan is the child of entry.sh whose child is `other`: nothing else is stopped.
    is "$(parent_of "$server")" "$entry" && kill -STOP "$server" || return
    read -r begun _ </proc/uptime
    ends_with 137 TERM || return
    read -r now _ </proc/uptime
    has_ended "$other" || { echo "a service is left"; return 1; }
    awk "BEGIN { exit !($now - $begun < 3) }" || { echo "GRACE was not kept: $begun to $now"; return 1; }
}

try_main() {
    export MAIN=app
    APP='exit 7' && start_entry && ends_with 7 && APP='kill -KILL $$' && start_entry && ends_with 137 || return
    "$t" replay --check <"$place/record"
}

# A quote, a dollar sign and a space go through; the working directory is that of this script; the folder for it is gone at the end.
try_command() {
    export TMPDIR="$folder/links"
    mkdir -p "$TMPDIR" || return
    start_entry -- sh -c 'printf "<%s>" "$@" "$PWD"; exit 9' - "it's" '$x y' && ends_with 9 || return
    grep -qF "<it's><\$x y><$PWD>" "$place/out" || { cat "$place/out"; return 1; }
    start_entry -- no-such-program && ends_with 127 || return
    start_entry -- "$place/services/other" && ends_with 126 && rmdir "$TMPDIR"
}

try_quit() {
    start_entry && soon "$t" svwait "$SOCKET" -u -t 5000 app || return
    ends_with 0 QUIT
}
APP='exec sleep infinity'
if env --default-signal=QUIT true 2>/dev/null; then
    for what in grace main command quit; do
        recipe "container-$what" eval "(try_$what) || { end_left; false; }"
    done
else skip container-quit "env sets no signal back"; fi

if has systemd-analyze; then
    # The program is not installed here, so what it says of that is passed over.
    try_systemd() {
        ! systemd-analyze verify "$here/systemd/s6_tree.service" 2>&1 | grep -v 'is not executable: No such file'
    }
    recipe systemd-unit try_systemd
else skip systemd-unit "no systemd-analyze"; fi

try_from_s6() {
    place=$folder/from-s6
    mkdir -p "$place/plain" "$place/a:b" "$place/logged/log" "$place/tools" "$place/fd" "$place/checked" "$place/slow" "$place/.s6-svscan" || return
    for service in plain a:b logged tools fd checked slow; do
        printf '#!/bin/sh\nexec sleep 1\n' >"$place/$service/run"
    done
    printf '#!/bin/sh\nexec s6-permafailon 60 3 1 true\n' >"$place/tools/finish"
    printf '#!/bin/sh\ns6-svwait -U ../plain\nexec sleep 1\n' >"$place/tools/run"
    printf '#!/bin/sh\nexec s6-notifyoncheck sleep 1\n' >"$place/checked/run"
    echo 3 >"$place/checked/notification-fd"
    echo 12 >"$place/fd/notification-fd"
    echo 5s >"$place/slow/timeout-kill"
    echo 05000 >"$place/plain/timeout-kill"
    chmod 755 "$place"/*/run "$place"/*/finish
    found=$(sh "$here/from-s6/check.sh" "$place")
    is $? 1 || { echo "status"; return 1; }
    for line in '^plain: works as it is' '^a:b: change: its name' '^logged: change: Log: ' '^tools: change: s6-permafailon' \
        '^tools: change: s6-svwait' '^checked: change: s6-notifyoncheck' '^checked: note: what run writes to descriptor 1' '^fd: change: NotifyFd' \
        '^slow: change: TimeoutKill' '^.s6-svscan: note'; do
        printf '%s\n' "$found" | grep -q "$line" || { echo "no line $line"; return 1; }
    done
    is "$(printf '%s\n' "$found" | grep -c 'works as it is')" 1 || { echo "more than one works as it is"; return 1; }
}
recipe from-s6 try_from_s6
echo "recipes: $held held, $failed failed, skipped:${skipped:- none}"
[ "$failed" = 0 ]
