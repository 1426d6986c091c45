#!/bin/sh
# check.sh DIRECTORY: says of each service directory of an s6 scan directory whether svscan can run it as it is: `change` is what stops it, `note`
# what is otherwise. Status 0 if no line says `change`, else 1.
#
#   S6_TREE=PROGRAM sh check.sh /run/service
#
# Of each directory its `run` and `finish` are searched for words; what those call is not. It changes nothing, and runs nothing of it.
S6_TREE=${S6_TREE:-s6_tree}
[ $# -eq 1 ] && [ -d "$1" ] || {
    echo "usage: check.sh DIRECTORY" >&2
    exit 100
}
cd -- "$1" || exit 111
verdicts=$("$S6_TREE" svcheck .)
case $? in
0 | 1) ;;
*) exit 111 ;;
esac
status=0
clean=
newline='
'

change() {
    clean=
    status=1
    printf '%s: change: %s\n' "$name" "$1"
}

note() {
    clean=
    printf '%s: note: %s\n' "$name" "$1"
}

# Whether `run` or `finish` has this word.
says() {
    grep -qsE "(^|[^[:alnum:]_-])($1)([^[:alnum:]_-]|\$)" "./$name/run" "./$name/finish"
}

for place in ./*; do
    [ -e "$place" ] || [ -L "$place" ] || continue
    name=${place#./}
    clean=yes
    case $name in
    *[!A-Za-z0-9._@-]*)
        change "its name: svscan takes 1 to 64 of A-Z a-z 0-9 . _ - @, so no colon"
        continue
        ;;
    esac
    [ -d "$name" ] || {
        note "no directory: s6 passes it over in silence, svscan tells it at each scan"
        continue
    }
    verdict=$(printf '%s\n' "$verdicts" | grep -F -- "$name: " | grep "^$name: " | head -n 1)
    case $verdict in
    *": refused "*) change "svscan doesn't take it: ${verdict#*: refused }" ;;
    esac
    # What svscan takes otherwise than it is written, or passes over.
    notes=$(printf '%s\n' "$verdicts" | grep -F -- "$name: noted " | grep "^$name: noted ")
    while IFS= read -r line; do
        [ -z "$line" ] || change "${line#*: noted }"
    done <<END
$notes
END
    says s6-permafailon && change "s6-permafailon: exec \"\$S6_TREE\" permafailon \"\$SOCKET\" \"\$3\" SECS COUNT LIST, as the last line"
    says 's6-notifyoncheck' && change "s6-notifyoncheck: let run ask, and then write a newline to the descriptor (docs/RECIPES.md, Readiness by polling)"
    says 's6-svwait|s6-svlisten|s6-svlisten1' && change "s6-svwait, s6-svlisten: \"\$S6_TREE\" svwait \"\$SOCKET\" -U NAME, with names and no paths"
    says 's6-svc|s6-svstat|s6-svok|s6-svscanctl|s6-svdt|s6-permafailon' && ! says s6-permafailon &&
        change "s6-svc and its like find no supervise/ here: \"\$S6_TREE\" svc \"\$SOCKET\" -LETTERS NAME, svstat, list"
    says 's6-ftrig-[a-z0-9]*|s6-mkfifodir' && change "event directories lie in svscan: ftrig-notify, ftrig-wait and mkfifodir of s6_tree take names"
    grep -qsE '(^|[^0-9$])\$\{?4|getenv 4|"\$@"|\$\*' "./$name/finish" && note "finish gets three arguments: exit code, signal number, name"
    case $verdict in
    *"readiness on descriptor 1"*) ;;
    *"readiness on descriptor"*) note "what run writes to descriptor 1 goes to svscan's standard error" ;;
    esac
    [ -z "$clean" ] || printf '%s: works as it is\n' "$name"
done
echo "all: note: rights on supervise/ and event/ count for nothing: give a group the SOCKET (docs/OPERATIONS.md, Security)"
echo "all: note: services lead no session of their own: where that matters, run ends with exec setsid DAEMON"
[ ! -d .s6-svscan ] || echo ".s6-svscan: note: its scripts are not run; entry.sh makes of TERM, INT and QUIT an end, of HUP a scan"
exit "$status"
