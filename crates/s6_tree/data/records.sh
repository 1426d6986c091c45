# The record of a tree: whose it is, what it may not be, and what comes of a tree that can't write it.
stage records
write web run "trap ': >$root/ended; exit' TERM; while :; do sleep 0.1; done"

# A link, and a pipe, in the record's place.
printf kept >"$root/target"
ln -s "$root/target" "$record"
say 'a link for a record' "$(outcome refused "$record")"
whether 'what it names is kept' [ "$(cat "$root/target")" = kept ]
rm "$record"
mkfifo "$record"
say 'a pipe for a record' "$(outcome refused "$record")"
rm "$record"

# Starts a server whose record can't grow beyond so many blocks of 512 bytes. The record is there once a service runs.
start_limited() {
    (
        trap '' XFSZ
        ulimit -f "$1"
        export S6_TREE_HANDOVER=200
        svscan "$record" >/dev/null 2>&1
    ) &
    server=$!
    soon answers
    tell svwait web
}

# The first run has more than 4,096 bytes.
start_limited 8
say "the record's rights" "$(stat -c %a "$record")"
socket=$root/second
say 'a record that another server uses' "$(outcome refused "$record")"
socket=$root/socket
for number in $(seq 300); do
    client svc -c web >/dev/null 2>&1 || break
done
end_of "$server"
say "a record that can't be written" $status
whether 'its services were ended in order' [ -e "$root/ended" ]

# The same while clients ask for scans: a service that ignores SIGTERM is killed once its timeout is over, and its finish runs.
rm "$record"
write web run "trap '' TERM; while :; do sleep 0.1; done"
write web finish ": >$root/finished"
echo 500 >web/timeout-kill
start_limited 64
for number in 1 2 3; do
    yes 'scanctl a' | client connect &
    yes "svc web u${newline}scanctl a" | client connect &
done >/dev/null 2>&1
end_of "$server"
say "a record that can't be written while scans are asked for" $status
whether 'a service that ignores SIGTERM was killed' [ -e "$root/finished" ]
