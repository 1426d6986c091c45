# A replay, which starts no child.
"$program" replay <"$scripts/restart.script"
