# How a server starts: its socket's rights, servers that start together, descriptors that are closed, and a socket that isn't its own.
stage starts
write web run 'exec sleep 100'

# A server with no mask of rights, and without standard descriptors. What a start leaves is there once a service runs.
(umask 0 && svscan <&- >&- 2>&-) &
server=$!
soon answers
tell svwait web
say "the socket's rights" "$(stat -c %a "$socket")"
has_no_folder() { [ ! -e "$socket.new" ] && [ ! -L "$socket.new" ]; }
whether 'its folder is gone' has_no_folder
say 'closed descriptors' "$(cd "/proc/$server/fd" && readlink 0 1 2 | joined)"
end

# Three servers at once, on a socket whose server is gone: one of them serves, and the others end 111 meanwhile. One that came later
# would find the socket gone, and serve.
two_have_ended() {
    ended=0
    for each in $three; do
        has_ended $each && ended=$((ended + 1))
    done
    [ $ended -ge 2 ]
}

# A socket whose server was killed. It had no services.
abandon() {
    mkdir -p "$root/none"
    "$program" svscan "$root/none" "$socket" >/dev/null 2>&1 &
    killed=$!
    soon answers
    kill -9 $killed
    wait $killed
}

for round in 1 2 3 4; do
    abandon 2>/dev/null
    three=
    for number in 1 2 3; do
        svscan >/dev/null 2>&1 &
        three="$three $!"
    done
    soon comes_to 0 svwait web
    soon two_have_ended
    client svscanctl -t
    statuses=
    for each in $three; do
        end_of $each
        statuses="$statuses$newline$status"
    done
    say 'three servers at once' "$(echo "$statuses" | sort -n | joined)"
done

# The first server's socket is moved away, and a second one starts in its place: the end of the first leaves it there.
start
first=$server
tell svwait web
mv "$socket" "$root/away"
start
second=$server
tell svwait web
socket=$root/away server=$first
end
rm "$root/away"
socket=$root/socket server=$second
say 'the socket of another server' "$(outcome client svstat -o wantedup web)"
end
