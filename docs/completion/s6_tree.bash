# Completion of s6_tree for bash. Made by tools/manual.py: change the help texts, not this file.
_s6_tree() {
    local word=${COMP_WORDS[COMP_CWORD]} words=
    if [ "$COMP_CWORD" = 1 ]; then
        COMPREPLY=($(compgen -W 'help --help --version svscan svcheck svc svstat list follow svwait svlisten svscanctl record connect mkfifodir ftrig-notify ftrig-wait permafailon replay' -- "$word"))
        return
    fi
    case ${COMP_WORDS[1]} in
        help) [ "$COMP_CWORD" = 2 ] && COMPREPLY=($(compgen -W 'svscan svcheck svc svstat list follow svwait svlisten svscanctl record connect mkfifodir ftrig-notify ftrig-wait permafailon replay' -- "$word")) && return ;;
        svscan) words='--help' ;;
        svcheck) words='--help' ;;
        svc) words='--help' ;;
        svstat) words='-o --help' ;;
        list) words='--json --help' ;;
        follow) words='--json --help' ;;
        svwait) words='-u -U -d -D -a -o -t --help' ;;
        svlisten) words='-u -U -d -D -r -R -a -o -t --help' ;;
        svscanctl) words='--help' ;;
        record) words='--help' ;;
        connect) words='--help' ;;
        mkfifodir) words='--help' ;;
        ftrig-notify) words='--help' ;;
        ftrig-wait) words='--help' ;;
        permafailon) words='--help' ;;
        replay) words='--check --migrate --story --timeline --help' ;;
    esac
    case $word in
        -*) COMPREPLY=($(compgen -W "$words" -- "$word")) ;;
        *) COMPREPLY=($(compgen -f -- "$word")) ;;
    esac
}
complete -o filenames -F _s6_tree s6_tree
