#!/usr/bin/env python3
"""Text for Prometheus of what `s6_tree list SOCKET --json` prints:  s6_tree list SOCKET --json | metrics.py"""
import json, sys

STATES = "ready up paused finishing restarting starting startfailed down failed gone unread".split()
rows = [json.loads(line) for line in sys.stdin]


def gauge(name, does, samples):
    print(f"# HELP {name} {does}\n# TYPE {name} gauge")
    for labels, value in samples:
        told = ",".join(f'{key}="{word}"' for key, word in labels.items())
        print(f"{name}{{{told}}} {value}")


gauge("s6_tree_state", "1 for the state that a service is in, else 0",
      [({"name": row["name"], "state": state}, int(row["state"] == state)) for row in rows for state in STATES])
gauge("s6_tree_wanted_up", "1 where a service is to be started when it is down",
      [({"name": row["name"]}, int(row["wantedup"])) for row in rows if row["wantedup"] is not None])
gauge("s6_tree_age_seconds", "for how many seconds a service has been up, or down",
      [({"name": row["name"]}, row["updownfor"]) for row in rows if row["updownfor"] is not None])
for key in ("exitcode", "signal"):
    gauge(f"s6_tree_{key}", f"the {key} of the last run of a service that is down",
          [({"name": row["name"]}, row[key]) for row in rows if row[key] is not None])
