# What people see of a tree: which services are there and why each is down, what happens now, and what has happened.
stage looking
write ready run 'echo >&3; exec sleep 100'
echo 3 >ready/notification-fd
write broken run 'exit 1'
write broken finish 'exit 125'
write stopped run 'exec sleep 100'
write never run 'exec sleep 100'
: >never/down
write unable run 'exec sleep 100'
chmod 644 unable/run
write again run 'exit 3'
mkdir unread
start "$record"
tell svwait -U ready
tell svc -d stopped
tell svwait -D stopped

# Which services there are, and why each is down. What dies at once is up, or in its pause.
states() { client list --json | sed 's/.*"name":"\([^"]*\)".*"state":"\([^"]*\)".*"fault":\([^}]*\)}/\1 \2 \3/'; }
soon eval 'states | grep "^broken failed"'
states | sed 's/^again .*/again is told/'
say 'its heads' "$(client list ready | head -n 1 | tr -s ' ')"
whether 'the time of day since which it is ready' eval 'client list ready | grep "^ready *ready *[0-9]* *20..-..-..T..:..:..Z "'
tell list nobody
open rows
ask rows states
sed 's/ again .*/ again/; s/^state \([a-z]*\) [-0-9]* row \([0-9]*\) \([a-z]*\) .*/state \1 \3/; s/^state [a-z]* [-0-9]* row [0-9]* again/again/' "$root/rows.out"
close rows

# Each letter once and in order, over ten deaths of five services.
for name in a b c d e; do
    write "$name" run 'exec sleep 100'
done
tell svscanctl -a
tell svwait a b c d e
client follow a b c d e >"$root/followed" 2>/dev/null &
follower=$!
client follow --json a >"$root/objects" 2>/dev/null &
objects=$!
sleep 0.5
for round in 1 2; do
    for name in a b c d e; do
        client svlisten -r "$name" -- "$program" svc "$socket" -k "$name" >/dev/null 2>&1 &
        listeners="$listeners $!"
    done
    wait $listeners
    listeners=
done
soon eval '[ "$(wc -l <"$root/followed")" -ge 30 ]'
for name in a b c d e; do
    sed -n "s/^20..-..-..T..:..:..\....Z $name \(.\) .*/\1/p" "$root/followed" | tr -d '\n'
    echo " $name"
done
sed -n '1s/"time":"[^"]*","at":[0-9]*/"time":T,"at":N/p' "$root/objects"
is_child "$follower" && kill "$follower"
is_child "$objects" && kill "$objects"
wait "$follower" "$objects" 2>/dev/null

# The run so far stands in the record, as often as somebody asks, and the tree goes on.
recorded() { client record | cut -d ' ' -f 2; }
first=$(recorded)
say 'the record' "$("$program" replay --check <"$record" | sed 's/[0-9][0-9]*/N/g')"
whether 'it has as many steps as it said' [ "$(grep -c '^= ' "$record")" = "$first" ]
tell svc -t ready
second=$(recorded)
whether 'it has more afterwards' [ "$second" -gt "$first" ]
whether 'and is legal still' eval '"$program" replay --check <"$record"'
whether 'its handovers are told' grep 'svscan: handover' "$root/errors"
whether 'where clients can come is told' grep "^svscan: serving $socket since 20..-..-..T..:..:..Z\$" "$root/errors"
end

# Without a record there is none to ask for.
stage unrecorded
write web run 'exec sleep 100'
start
tell record
tell svwait web
end
