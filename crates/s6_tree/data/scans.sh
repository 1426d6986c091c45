# Scan directories that are no good: strange names, too many services, too long a listing; and a standard error that nobody reads.
stage scans
write web run 'echo >&3; exec sleep 100'
printf 3 >web/notification-fd
mkfifo "$root/errors"
exec 3<>"$root/errors"
start

mkdir "$(printf 'a\377b')" 'a b' .hidden
tell svscanctl -a
mkdir $(seq -f s%g 257)
for directory in s*; do
    : >$directory/run
    : >$directory/down
done
tell svscanctl -aa
mkdir $(seq -f long-%g-234567890123456789012345678901234567890123456789012 1000 2199)
for directory in long*; do
    : >$directory/run
done
tell svscanctl -a

# Each of the 1,200 is told of from now on: six times that is more than a pipe and the list of notes hold. Scans, statuses and restarts go on.
rm long*/run
for number in 1 2 3 4 5 6; do
    client svscanctl -a 2>/dev/null
done
tell svwait -U web
tell svc -k web
whether 'a restart with a full standard error' soon comes_to '0 true true' svstat -o up,ready web
end

# What the server told on its standard error.
exec 4<"$root/errors" 3>&-
cat <&4 >"$root/told"
exec 4<&-
is_told() { grep -A 1 '^svscan: BadName$' "$root/told" | grep -qxF "svscan: $1 is no name of a service"; }
whether "a name that isn't UTF-8 is told" is_told "'a\\xffb'"
whether 'a name with a space is told' is_told "'a b'"
whether 'a listing that is too long is told' grep -qx 'svscan: the listing is longer than a line of a script' "$root/told"
say 'services past the limit that are told' "$(grep -c ' full$' "$root/told")"

# The listing is too long at the start.
for directory in long*; do
    : >$directory/run
done
is_refused() { case $(outcome refused) in '111 '*' svscan: directory') ;; *) false ;; esac; }
whether 'a listing that is too long at the start is refused' is_refused
