# Faults of a moment, limits that the system sets, signals that are ignored, and a server that answers nothing.

# Starts a server behind these words of the shell, with a record, and waits until it answers.
start_behind() {
    (eval "$1"; svscan "$root/record") >/dev/null 2>"$root/errors" &
    server=$!
    soon answers || exit 1
}

# Ten waits under a limit of 14 descriptors: short requests are answered, also of one more, and want of descriptors is told once.
stage few
write web run 'exec sleep 1000'
start_behind 'ulimit -n 14'
tell svwait -u web
for number in $(seq 10); do
    client svwait -d web &
    waits="$waits $!"
done
is_told() { [ "$(grep -c '^svscan: no descriptor is left for clients' "$root/errors")" = 1 ]; }
whether 'want of descriptors is told once' soon is_told
for number in 1 2 3; do
    tell svstat -o up web
done
tell svc -d web
wait $waits
end
whether 'the record is legal' "$program" replay --check <"$root/record"

# A run that is being written when it is to start: the start is tried again. What it can't be is told, and a `d` ends the trying.
stage moment
write plain run 'exec sleep 1000'
write tidy run 'exec sleep 1000'
write tidy finish 'echo cleared >cleared'
start
tell svwait -u plain
exec 4>>plain/run
tell svc -k plain
tell svwait -D -t 5000 plain
sleep 1.5
exec 4>&-
tell svwait -u -t 3000 plain
whether 'nothing is told of it' [ "$(grep -c "can't be started" "$root/errors")" = 0 ]
exec 4>>plain/run
tell svc -k plain
sleep 1.5
tell svc -d plain
is_down() { client list --json plain | grep -q '"state":"down"'; }
whether 'a start that is tried again ends with d' soon is_down
exec 4>&-
tell svc -u plain
tell svwait -u -t 3000 plain

# A finish that is being written is tried again, also where the service is to be down meanwhile.
tell svwait -u tidy
exec 4>>tidy/finish
tell svc -d tidy
tell svwait -d tidy
tell svc -d tidy
sleep 0.3
exec 4>&-
tell svwait -D -t 3000 tidy
whether 'its finish has run' [ -s tidy/cleared ]

# An interpreter that isn't there, with readiness and without.
for name in told untold; do
    write $name run ''
    printf '#!/no/interpreter\n' >$name/run
done
echo 3 >told/notification-fd
tell svscanctl -a
has_failed() { [ "$(client list --json told untold | grep -c '"state":"startfailed"')" = 2 ]; }
whether 'both have failed to start' soon has_failed
for name in told untold; do
    whether "it is told of $name" grep -q "^svscan: .*/$name/run can't be started (svc -u tries again at once)$" "$root/errors"
done
whether 'nothing says that it is not found' [ "$(grep -c 'not found' "$root/errors")" = 0 ]
end

# A limit of a file's size counts as a full disk. What was cut is told.
stage short
write web run 'exec sleep 1000'
start_behind 'ulimit -f 16'
tell svwait -u web
for number in $(seq 600); do
    echo 'svc web h'
done | "$program" connect "$socket" >/dev/null
outcome client record >/dev/null
end_of "$server"
say 'a record past the limit of a file' $status
say 'told' "$(tail -n 2 "$root/errors" | without_hints)"
# The limit may lie between two lines: one letter more makes a line that is cut in any case.
{ cat "$root/record"; printf x; } >"$root/cut"
say 'its check' "$(outcome sh -c '"$1" replay --check <"$2"' - "$program" "$root/cut" | sed 's/[0-9][0-9]* /N /g')"
lines=$("$program" replay --check <"$root/cut" 2>&1 | sed -n 's/.*head -n \([0-9]*\) .*/\1/p')
say 'its whole lines' "$(head -n "$lines" "$root/record" | "$program" replay --check | sed 's/[0-9][0-9]*$/N/')"

# A record that is removed, and a server that answers nothing: the tools end, and a wait is bound by its timeout.
stage gone
write web run 'exec sleep 1000'
start "$root/record"
tell svwait -u web
client follow >"$root/followed" 2>&1 &
follower=$!
rm "$root/record"
tell record
kill -STOP "$server"
for words in 'svstat -o up web' 'svc -h web' 'list'; do
    say "$words" "$(outcome client $words | sed 's/from .* (/from PATH (/')" >"$root/$(echo "$words" | tr ' ' -)" &
    silent="$silent $!"
done
tell svwait -d -t 100 web
wait $silent
cat "$root/svstat--o-up-web" "$root/svc--h-web" "$root/list"
kill -CONT "$server"
end
wait $follower
say 'what is followed ends' "$? $(tail -n 1 "$root/followed" | sed 's/ at .* has/ has/')"

# Signals that are ignored at the start.
stage ignored
start_behind "trap '' TERM HUP INT"
for name in TERM HUP INT; do
    whether "$name is told" grep -q "^svscan: $name is ignored" "$root/errors"
done
end
say 'CHLD is ignored' "$(outcome timeout 20 env --ignore-signal=CHLD "$program" svscan "$root/services" "$socket")"
