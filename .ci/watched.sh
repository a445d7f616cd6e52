# Runs beside watchers, by the real program on real files. What they read differs from run to run, but for the last line of each.

# A run of 4096 steps, each of which adds a record, without watchers and beside eight.
steps=4096
many=$(records 1 "$(for record in $(seq 0 $((steps - 1))); do printf '0 put_var1_all s [%s] 7\n' "$record"; done)")
plain=$(printf '%s\n' "$many" | "$program" plain.nc)
given=$(printf '%s\n' "$many" | "$program" --watch 8 watched.nc)
same 'a watched run: status' 0 $?
same 'a watched run: its text begins as that of one that nobody watches' "$plain" "${given%%
watcher 0
*}"
same 'a watched run: its file is that of one that nobody watches' yes "$(cmp -s plain.nc watched.nc && echo yes || echo no)"

# Each watcher's number, its line that stands where the 17th does, and each line that has fewer steps than the one before or another
# record count than it has steps.
watchers=$(printf '%s\n' "$given" | sed -n '/^watcher 0$/,$p' | awk '
    /^watcher / { print; line = 0; before = 0; next }
    ++line >= 17 || $1 < before || $2 != $1 { print }
    { before = $1 }')
same 'a watched run: the lines of its watchers' "$(for watcher in 0 1 2 3 4 5 6 7; do printf 'watcher %s\n%s %s\n' $watcher $steps $steps; done)" "$watchers"

printf '%s\n' "$many" | "$program" --watch 8 watched.nc > /dev/full
same 'a watched run whose output takes nothing: status' 6 $?
same 'a watched run whose output takes nothing: its file' yes "$(cmp -s plain.nc watched.nc && echo yes || echo no)"

# Words that name too many watchers or none, or watchers of something else than a run of a script.
for words in '--watch 9 d.nc' '--watch 0 d.nc' '--watch 1 --offsets d.nc' '--watch 1 --generate 0 d.nc'; do
    # shellcheck disable=SC2086
    given=$("$program" $words < script)
    same "$words: status" 2 $?
    same "$words: the usage" 'ncrun: usage: ncrun [--offsets] [--generate SEED [--size N]] [--watch N] DATASET' "$given"
done
