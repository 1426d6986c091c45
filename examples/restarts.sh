#!/bin/sh
# restarts.sh SERVICES LINES: a script of so many input lines. The services are started, die 300 milliseconds later, and are started again
# a second after that, again and again.
awk -v services="$1" -v lines="$2" '
  function line(text) { if (left > 0) { print text; left-- } }
  BEGIN {
    left = lines
    print "s6-script 1"
    scan = "0 1 scan"
    for (i = 1; i <= services; i++) scan = scan " s" i
    line(scan)
    for (run = 1; left > 0; run++) {
      for (i = 1; i <= services; i++) line(now + 0 " 1 started " i " " run " " 500 + i)
      now += 300
      for (i = 1; i <= services; i++) line(now " 1 death " i " " run " code 1")
      now += 1000
      line(now " 1 tick")
    }
  }'
