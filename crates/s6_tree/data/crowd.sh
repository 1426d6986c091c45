# Services that die again and again, and what is left of them.
before=$(census_at_rest)
for number in $(seq 0 39); do
    write dies$number run 'exit 0'
    echo "tally dies$number"
done >"$root/tallies"
tell svscanctl -a

# Whether there were 200 deaths: a space stands before each.
has_deaths() { [ "$(connect <"$root/tallies" | tr -cd ' ' | wc -c)" -ge 200 ]; }

whether '200 deaths' soon has_deaths
rm -r dies*
tell svscanctl -an
whether 'all gone' soon comes_to '1 svc: refused Ended' svc -u dies0
whether 'no zombie, descriptors and threads as before' soon has_at_most $before
