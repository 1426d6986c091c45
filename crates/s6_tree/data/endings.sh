# What is left of a tree that has ended, and servers that can't start.
end
whether 'the socket is gone' [ ! -e "$socket" ]
tell svc -u web

# Starts a server that is to end by itself, in a shell of its own.
refused() { (svscan "$@"); }

say "a record that can't be made" "$(outcome refused "$root/none/record")"
printf kept >"$socket"
say "another file at the socket's path" "$(outcome refused)"
whether 'it is kept' [ "$(cat "$socket")" = kept ]
