# What the files of services mean where that isn't what their writer meant: the lines and the status of svcheck, and svscan's notes at a scan.
stage checks
for name in right texts many passed; do
    write $name run 'exec sleep 100'
done
printf '5000\n' >right/timeout-kill
printf '007' >right/timeout-finish
printf '4096\n' >right/max-death-tally
printf 'SIGHUP\n' >right/down-signal
printf '3\n' >right/notification-fd
mkdir right/data right/env
printf '5s\n' >texts/timeout-kill
printf ' 5000\n' >texts/timeout-finish
printf 'many\n' >texts/max-death-tally
printf 'hup\n' >texts/down-signal
printf '2\n' >texts/notification-fd
printf '4097\n' >many/max-death-tally
mkdir passed/log passed/instance passed/instances
: >passed/lock-fd
: >passed/flag-newpidns

# service NAME LINE..: a service whose `run` has these lines.
service() {
    mkdir "$1"
    (shift; printf '%b\n' "$@") >"$1/run"
    chmod 755 "$1/run"
}
service mode '#!/bin/sh'
chmod 644 mode/run
mkdir -p folder/run
service empty
: >empty/run
service bare 'exec sleep 100'
service bare-1 'exec sleep 100'
printf '1\n' >bare-1/notification-fd
service bare-3 'echo >&3' 'exec sleep 100'
printf '3\n' >bare-3/notification-fd
service carriage '#!/bin/sh\r' 'exec sleep 100\r'
service gone '#! /no/such/interpreter -e' 'exec sleep 100'
service gone-3 '#!/no/such/interpreter' 'exec sleep 100'
printf '3\n' >gone-3/notification-fd
service relative '#!sh' 'exec sleep 100'
service own '#!\t./shell' 'exec sleep 100'
cp /bin/sh own/shell
service unusable '#!/' 'exec sleep 100'
mkdir binary
cp /bin/sh binary/run
write finished run 'exec sleep 100'
printf 'exit 0\n' >finished/finish
for name in *; do
    : >$name/down
done

report=$("$program" svcheck .)
status=$?
printf '%s\n' "$report"
say 'svcheck of what is not as it is written' $status

# Every line of a scan is one of standard error. The first scan is that of the start.
start
notes() { sed -n 's/^svscan: \([^ ]* [A-Z][A-Za-z]*\)$/\1/p' "$root/errors"; }
has_notes() { [ "$(notes | wc -l)" -ge "$1" ]; }
soon has_notes 23
notes | LC_ALL=C sort
say 'services that are unread' "$(client list | grep -c unread)"
tell svscanctl -a
soon has_notes 46
say 'notes after two scans' "$(notes | wc -l)"

# What was said is so.
tell svc -u bare-3
tell svwait -U -t 20000 bare-3
tell svc -u own
tell svwait -u -t 20000 own
tell svc -u gone
is_startfailed() { client list gone | grep -q ' startfailed '; }
whether 'a service whose interpreter is not there has failed to start' soon is_startfailed
end

mkdir "$root/good"
mv right own binary "$root/good"
"$program" svcheck "$root/good"
say 'svcheck of what is as it is written' $?
