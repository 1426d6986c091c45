# Twenty services that wait for one which is slow, more than the server has slots: each comes up once that one is up, and none is given up.
stage waiting
write clock run 'sleep 3; echo; exec sleep 100'
echo 1 >clock/notification-fd
for number in $(seq 20); do
    write waits$number run "'$program' svwait '$socket' -U clock || exit; exec sleep 100"
    write waits$number finish "exec '$program' permafailon '$socket' waits$number 60 3 1-98"
done
start
whether 'the slow one is up' soon comes_to 0 svwait -U clock
for number in $(seq 20); do
    echo "svstat -o up waits$number"
done >"$root/statuses"
are_up() { [ "$(tell_each <"$root/statuses" | grep -c ': 0 true$')" = 20 ]; }
whether 'all that waited for it are up' soon are_up
tell svwait -t 100 -D clock
end
