# Wrong usages, and what is told of each: the word that is wrong, and what would be right.
stage usage
write web run 'exec sleep 100'
mkdir 'a b' empty plain
write plain run 'exec sleep 100'
: >plain/down
printf '4\n' >web/notification-fd
printf '2\n' >plain/notification-fd
long=$(printf '%0120d' 0)
start
client svwait web

# Runs the program with wrong words. Paths of the trial are told as they are anywhere.
wrong() {
    written=$("$program" "$@" </dev/null 2>&1)
    printf '%s: %s\n%s\n' "$*" $? "$written" | sed "s#$root#ROOT#g"
}

# The same of a client, the socket's path behind the first word.
wrong_client() {
    tool=$1
    shift
    wrong "$tool" "$socket" "$@"
}

wrong frob
wrong help frob
wrong help svc svwait
wrong --version now
say 'a word that is no text' "$(outcome "$program" svcheck "$(printf 'a\377')")"
wrong svscan
wrong svscan a
wrong svscan a b c d
wrong svscan "$root/none" "$root/other"
wrong svscan "$root/services" "$socket"
wrong svscan "$root/services" "$root/services"
wrong svscan "$root/services" "$root/none/socket"
: >"$root/taken.new"
wrong svscan "$root/services" "$root/taken"
wrong svscan "$root/services" "/$long"
wrong svcheck
wrong svcheck a b
wrong svcheck "$root/none"
chmod 644 plain/run
wrong svcheck "$root/services"
wrong connect
wrong connect a b
wrong connect "$root/none"
wrong svc
wrong svc "$root/none" -u web
wrong svc "/$long" -u web
wrong_client svc
wrong_client svc -u
wrong_client svc web
wrong_client svc -z web
wrong_client svc - web
wrong_client svc -u web log
wrong_client svc -u "we
b"
wrong_client svc -u nobody
wrong_client svstat web
wrong_client svstat -o up
wrong_client svstat -o up,what web
wrong_client svstat -o up we/b
wrong_client svstat -o up web log
wrong_client svstat -x web
wrong_client svstat -oup,what web
wrong_client svstat -o pid nobody
wrong_client svstat -o pid empty
wrong_client svwait empty
wrong_client svwait
wrong_client svwait -t 5s web
wrong_client svwait -u -d web
wrong_client svwait -a -o web
wrong_client svwait -q web
wrong_client svwait web a,b
wrong_client svwait nobody
wrong_client svwait web web
wrong_client svwait a b c d e f g h i j k l m n o p q
wrong_client svlisten web
wrong_client svlisten web -- ./no-such-program
wrong_client svlisten -q web -- true -x
wrong_client svscanctl
wrong_client svscanctl -z
wrong_client svscanctl web
wrong_client mkfifodir
wrong_client mkfifodir .queue
wrong_client mkfifodir queue other
wrong_client ftrig-notify queue
wrong_client ftrig-notify queue 'a b'
wrong_client ftrig-notify a/b c
wrong_client ftrig-notify queue a
wrong_client ftrig-notify web/event a
wrong_client ftrig-wait queue
wrong_client ftrig-wait queue ''
wrong_client ftrig-wait queue '('
wrong_client ftrig-wait queue "$long$long$long"
wrong_client permafailon web
wrong_client permafailon web 5s 3 1
wrong_client permafailon web 60 3x 1
wrong_client permafailon web 60 3 none
wrong_client permafailon .web 60 3 1
wrong_client permafailon web 60 3 1 more
wrong_client permafailon nobody 60 3 1
wrong_client list --what
wrong_client list .web
wrong_client follow --what
wrong_client record now
wrong_client record
wrong_client svwait -t 100 nobody

# Words that are empty, as an unset variable between quotes.
wrong svscan '' b
wrong svscan a ''
wrong svscan a b ''
wrong svcheck ''
wrong connect ''
wrong svstat '' -o up web

# What the help texts say: where this changes, tools/manual.py is to be run, which makes the manual pages and the completion of them.
texts() {
    "$program" --help
    for tool in $("$program" --help | sed -n '/^tools:/,/^$/s/^  \([a-z-]*\) .*/\1/p'); do
        "$program" "$tool" --help
    done
}
say 'checksum of the help texts' "$(texts | cksum)"
whether 'help of a tool, four ways' sh -c '
    text=$("$1" help svc) && [ "$text" = "$("$1" svc --help)" ] && [ "$text" = "$("$1" svc -h)" ] && [ "$text" = "$("$1" svc "$2" --help)" ]' sh "$program" "$socket"
end
