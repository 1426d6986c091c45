# Services that start, stop, become ready, fail, come and go.
stage first
write web run 'exec sleep 100'
write three run 'echo >&3; exec sleep 100'
echo 3 >three/notification-fd
write one run 'echo; exec sleep 100'
echo 1 >one/notification-fd
write fails run 'exit 1'
write fails finish 'exit 125'
: >fails/down
start

tell_each <<'END'
svwait web
svstat -o up,wantedup,ready web
svwait -U one three
svstat -o up,ready three
svstat -o up,ready one
svc -u nobody
svwait nobody
svwait -U -t 50 web
svc -d web
svwait -D web
svstat -o up,wantedup,pid web
svc -u web
svwait -u web
END

# A service that fails for good, while a client waits for it to be ready: it starts the service once it waits.
say 'a permanent failure' "$(outcome client svlisten -R fails -- "$program" svc "$socket" -u fails)"
tell permafailon fails 60 1 1
tell permafailon fails 60 1 2

# A daemon that was ready is killed, and is ready again. The tree sends the signal, so no number of a status goes to `kill`.
say 'killed, and ready again' "$(outcome client svlisten -R three -- "$program" svc "$socket" -k three)"
tell svstat -o up,ready three

# All services, without their ages and process numbers.
client list --json | sed 's/"pid":[1-9][0-9]*/"pid":N/; s/downfor":[0-9][0-9]*/downfor":N/; s/readyfor":[0-9][0-9]*/readyfor":N/; s/"since":"20[^"]*"/"since":T/'
tell list nobody

# Free event directories, and those of services.
tell_each <<'END'
mkfifodir queue
mkfifodir queue
ftrig-notify queue ab
ftrig-notify web/event u
ftrig-wait nothing a
ftrig-wait queue (
END
tell ftrig-wait queue "a${newline}b"

# A directory that comes, and goes.
write guest run 'exec sleep 100'
tell svstat -o up guest
tell svscanctl -a
tell svwait guest
tell svstat -o up guest
rm -r guest
tell svscanctl -an
whether 'the guest is gone' soon comes_to '1 svc: refused Ended' svc -u guest
tell svwait guest
tell svscanctl -a
tell svstat -o up guest
