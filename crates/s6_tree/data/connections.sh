# Connections that clients don't make: half lines, too many, one that never reads, and noise.
connect() { timeout 20 "$program" connect "$socket"; }

# Whether what is read is sent, and the server then ends the connection.
ends_after() { timeout 20 "$program" connect "$socket" <"$1" || [ $? -ne 124 ]; }

before=$(census_at_rest)

# Requests that no client sends, and a waiter that is released as it is made.
printf 'tick\n\nscan web\nstarted 1 1 5\nsvc web\n' | connect
say 'a full disk' "$(echo clock | connect 2>&1 >/dev/full | without_hints)"
open waiter
request waiter 'wait u a 0 web'
soon has_replies waiter 2
whether 'a waiter, and then its release' grep -q '^r [0-9]* held$' "$root/waiter.out"
# The connection may end before all of this line is written.
(trap '' PIPE && printf '%08192d\n' 0 >"$root/waiter.in" 2>/dev/null)
soon has_replies waiter 3
tail -n 2 "$root/waiter.out"
whether 'a long line ends its connection' soon has_ended "$client_waiter"
close waiter

# A line in pieces, and one of 8,192 bytes with its newline, which doesn't end its connection.
open pieces
printf 'tally w' >"$root/pieces.in"
sleep 0.1
printf 'eb\n' >"$root/pieces.in"
printf '%08191d\ntally web\n' 0 >"$root/pieces.in"
soon has_replies pieces 3
say 'in pieces, and of 8192 bytes' "$(sed '/^$/d; s/^tally.*/tally/' "$root/pieces.out" | joined)"
close pieces

# Many requests that are sent at once, each answered in its place; a waiter that holds is released before the next reply.
for number in $(seq 200); do
    printf '%s\n' 'tally web' 'svc nobody d' 'wait u a 0 web' 'permafailon web 1 1 0' 'cancel 99999'
done >"$root/batch"
say 'many at once' "$(connect <"$root/batch" | sed '/^$/d; s/^tally.*/tally/; s/ [0-9][0-9]*/ N/g' |
    paste -d , - - - - - - | sort | uniq -c | sed 's/^ *//' | joined)"
printf 'svc web d' >"$root/half"
whether 'half a line ends' ends_after "$root/half"
tell svstat -o up,wantedup web

# Opens a connection of this name, where the server has a slot for it, and asks this, whose reply begins so.
slot() {
    open "$1"
    ask "$1" "$2"
    grep -q "^$3" "$root/$1.out" && return
    close "$1"
    false
}

# Whether a connection that comes now gets no slot.
is_sent_away() { [ "$(connect </dev/null)" = busy ]; }

# Ten connections that wait, an eleventh, which may not, and one more: the eleventh waits for nothing, and makes way.
for number in $(seq 10); do
    soon slot slot$number 'wait D a 0 web' wait
done
soon slot slot11 'tally web' tally
request slot11 'wait D a 0 web'
soon has_replies slot11 2
say 'a wait on the last slot' "$(tail -n 2 "$root/slot11.out" | joined)"
say 'one more' "$(echo 'tally three' | connect | sed 's/ .*//' | joined)"
whether 'an idle connection makes way' soon has_ended "$client_slot11"
close slot11
tell svstat -o up three

# An eleventh that doesn't read its answers makes way too, but not at once: one more is sent away, and gets the slot a second later.
mkfifo "$root/unread"
exec 3<>"$root/unread"
yes 'status web' | head -n 20000 >"$root/asked"
"$program" connect "$socket" <"$root/asked" >&3 3>&- &
unread=$!
say 'one more' "$(soon is_sent_away && echo busy)"
whether 'it gets in later' soon comes_to '0 true' svstat -o up three
kill $unread
wait $unread
exec 3>&-
say 'still there' "$(for number in $(seq 10); do eval "is_child \$client_slot$number" && echo $number; done | joined)"
close slot10
whether 'a slot is free again' soon comes_to 0 svc -u web
for number in $(seq 9); do
    close slot$number
done
whether 'all have left' soon has_at_most $before

# Eleven that have just asked: each makes way, and comes again.
for number in $(seq 11); do
    soon slot slot$number 'tally web' tally
done
tell svstat -o up three
tell svstat -o up three
for number in $(seq 11); do
    close slot$number
done
whether 'all have left again' soon has_at_most $before

# Sixteen that come together and wait a moment: each wait that is made has its verdict. Whoever finds no slot is told `busy`.
for number in $(seq 16); do
    { echo 'wait D a 300 web' && sleep 1; } | connect >"$root/brief$number" &
    briefs="$briefs $!"
done
wait $briefs
cat "$root"/brief* >"$root/briefs"
whether 'brief waits are made' grep -q '^wait ' "$root/briefs"
whether 'none of them is lost' [ "$(grep -c '^wait ' "$root/briefs")" = "$(grep -c '^r [0-9]* timedout$' "$root/briefs")" ]
say 'other answers' "$(grep -v '^wait \|^r \|^busy$\|^refused Busy$' "$root/briefs" | joined)"
whether 'all have left once more' soon has_at_most $before

# A waiter that holds at once, and 64 that wait, on one connection: the last of these gets the place of the first. One more is refused.
open many
{
    echo 'wait u a 0 web'
    for number in $(seq 65); do
        echo 'wait D a 0 web'
    done
} >"$root/many.in"
soon has_replies many 67
say 'waiters of one connection' "$(grep -c '^wait ' "$root/many.out"), and refused: $(grep -c '^refused Busy$' "$root/many.out")"
close many
whether 'its waiters are gone' soon has_at_most $before

# A client that asks for 12,000 rows, ends its half, and reads late, while another one sends what it has subscribed to.
client mkfifodir half
mkfifo "$root/late"
exec 3<>"$root/late"
{
    echo 'subscribe dir half repeat .'
    yes 'status web' | head -n 12000
} | "$program" connect "$socket" >&3 3>&- &
read -r subscribed <&3
for number in $(seq 20); do
    client ftrig-notify half a
done
exec 4<"$root/late" 3>&-
say 'rows behind a half-close' "$(timeout 20 grep -c '^row ' <&4)"
exec 4<&-

# A client that asks and never reads: others are answered meanwhile, and in the end the server closes it, though it waits on.
yes 'status web' | head -n 105000 >"$root/questions"
mkfifo "$root/deaf"
exec 3<>"$root/deaf"
"$program" connect "$socket" <"$root/questions" >&3 3>&- &
deaf=$!
has_more() { ! has_at_most $before; }
soon has_more
tell svstat -o up three
whether 'a client that never reads is closed' soon has_at_most $before
whether 'it has not read' is_running $deaf
kill $deaf
wait $deaf
exec 3>&-

# Bytes that mean nothing.
seq 200000 | gzip -nc | head -c 100000 >"$root/noise"
whether 'noise ends' ends_after "$root/noise"
tell svstat -o up,wantedup web
