# A tree whose runs have 200 steps: its clients see none of their ends, though six of them ask 12,000 requests.
stage short
write web run 'exec sleep 100'
write broken finish 'exit 0'
echo '#!/bin/sh' >broken/run
export S6_TREE_HANDOVER=200
start "$record"
unset S6_TREE_HANDOVER

# A waiter stands from the first run on, and a client leaves after half a line.
tell svwait web
open waiter
ask waiter 'wait d a 0 web'
printf 'svc web d' >"$root/half"
whether 'half a line ends' ends_after "$root/half"

# Six clients make 50 waiters each, all before the first reads a reply, and cancel them; 20 times. There is room for four more that have
# ended, or wait: on the last slot none may wait.
six=$(seq 6)
for each in $six; do
    open asks$each
done
replies=0
for round in $(seq 20); do
    for each in $six; do
        yes 'wait D a 0 web' | head -n 50 >"$root/asks$each.in"
    done
    replies=$((replies + 50))
    for each in $six; do
        soon has_replies asks$each $replies
        grep '^wait ' "$root/asks$each.out" | tail -n 50 | sed 's/^wait/cancel/' >"$root/asks$each.in"
    done
    replies=$((replies + 50))
    for each in $six; do
        soon has_replies asks$each $replies
    done
done
say 'waiters of 6000' "$(cat "$root"/asks*.out | grep -c '^wait [0-9]*$')"
say 'cancelled of 6000' "$(cat "$root"/asks*.out | grep -c '^done$')"
for each in $six; do
    close asks$each
done
tell svc -d web
soon has_replies waiter 2
whether 'a waiter of the first run, and its release in the last' grep -q '^r [0-9]* held$' "$root/waiter.out"
close waiter
end
whether '50 handovers and more' [ "$(grep -c 'svscan: handover$' "$root/errors")" -ge 50 ]
whether "a run that isn't executable is told" grep -q "/broken/run can't be started (svc -u tries again at once)$" "$root/errors"

# How many inputs the record has, if it is legal.
legal=$("$program" replay --check <"$record" | sed -n 's/^legal //p')
whether 'the record of all runs is legal' [ "${legal:-0}" -ge 12000 ]
