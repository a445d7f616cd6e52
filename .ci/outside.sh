# Runs under odd conditions of the system: closed descriptors, a dataset that can't be written, and ranks that only wait.

# ends NAME STATUS FILE WANTED: the status that the last run ended with, and the bytes of its file, which are those of WANTED
ends() {
    same "$1: status" "$2" "$status"
    same "$1: bytes" yes "$(cmp -s "$3" "$4" && echo yes || echo no)"
}

# A script that makes a dataset, one that puts to it, and what each leaves.
printf '%s\n' "$(vector 1 '' '0 put_var_all v 1 2 3 4')" > making
printf 'open\nranks 1\ndata\n0 put_var1_all v [0] 9\nend\n' > putting
printf 'open\nranks 1\ndata\n0 get_var_all v\nend\n' > getting
"$program" made_before.nc < making > /dev/null
cp made_before.nc put_before.nc
"$program" put_before.nc < putting > /dev/null
"$program" --generate 0 --size 1 generated_before.nc < /dev/null > /dev/null
printf 'old' > old_before.nc

# Without a standard output the run is done, and the status says that its text was not given. Without a standard input there is no
# script: the dataset stays.
"$program" new.nc < making >&-
status=$?
ends 'a dataset is created without an output' 6 new.nc made_before.nc
cp old_before.nc kept.nc
given=$("$program" kept.nc <&- 2> /dev/null)
status=$?
same 'a script without an input: line' 'ncrun: script line 1: no head' "$given"
ends 'a script without an input' 3 kept.nc old_before.nc
"$program" kept.nc <&- >&- 2> /dev/null
status=$?
ends 'a script without input and output' 3 kept.nc old_before.nc

cp made_before.nc opened.nc
"$program" opened.nc < putting >&-
status=$?
ends 'a dataset is opened without an output' 6 opened.nc put_before.nc
cp made_before.nc opened.nc
"$program" opened.nc <&- > /dev/null 2> /dev/null
status=$?
ends 'a dataset that is there, without an input' 3 opened.nc made_before.nc
"$program" opened.nc <&- >&- 2> /dev/null
status=$?
ends 'a dataset that is there, without input and output' 3 opened.nc made_before.nc

"$program" --offsets opened.nc < /dev/null >&-
status=$?
ends 'offsets without an output' 6 opened.nc made_before.nc
"$program" --offsets opened.nc <&- > /dev/null
status=$?
ends 'offsets without an input' 0 opened.nc made_before.nc
"$program" --offsets opened.nc <&- >&- 2>&-
status=$?
ends 'offsets without input and outputs' 6 opened.nc made_before.nc

"$program" --generate 0 --size 1 generated.nc < /dev/null >&-
status=$?
ends 'a made run without an output' 6 generated.nc generated_before.nc
"$program" --generate 0 --size 1 generated.nc <&- > /dev/null
status=$?
ends 'a made run without an input' 0 generated.nc generated_before.nc
"$program" --generate 0 --size 1 generated.nc <&- >&- 2>&-
status=$?
ends 'a made run without input and outputs' 6 generated.nc generated_before.nc

# An input that can't be read, as a folder can't, is a fault of the source: nothing is printed.
given=$("$program" kept.nc < .)
status=$?
same 'an input that fails: text' '' "$given"
ends 'an input that fails' 5 kept.nc old_before.nc

# Where the line of a fault can't be given, the status is that of the fault.
"$program" < making > /dev/full
same 'words of no form, and an output that takes nothing' 2 $?
"$program" kept.nc < /dev/null > /dev/full 2> /dev/null
same 'a script without a head, and an output that takes nothing' 3 $?
"$program" kept.nc < putting > /dev/full
same 'a dataset without a header, and an output that takes nothing' 4 $?
"$program" missing/kept.nc < making > /dev/full 2> /dev/null
same 'a path that cannot be opened, and an output that takes nothing' 7 $?
same 'the file is kept' yes "$(cmp -s kept.nc old_before.nc && echo yes || echo no)"
rm -f kept.nc old_before.nc

# A dataset that can't be written can be listed and read. Nobody but root may write it all the same, so root runs this as another user.
as_user=()
if [ "$(id -u)" -eq 0 ]; then
    if command -v setpriv > /dev/null; then
        as_user=(setpriv --reuid=65534 --regid=65534 --clear-groups)
    elif command -v runuser > /dev/null; then
        as_user=(runuser -u nobody --)
    fi
fi
if [ "$(id -u)" -eq 0 ] && [ "${#as_user[@]}" -eq 0 ]; then
    echo 'skipped: a dataset that can'\''t be written, since this is root and there is neither setpriv nor runuser'
else
    archive=$(mktemp -d) || exit 1
    cp "$program" "$archive/ncrun"
    cp made_before.nc "$archive/d.nc"
    chmod 444 "$archive/d.nc"
    chmod 555 "$archive/ncrun" "$archive"
    given=$("${as_user[@]}" "$archive/ncrun" --offsets "$archive/d.nc" < /dev/null)
    status=$?
    ends 'offsets of a dataset that is not to be written' 0 "$archive/d.nc" made_before.nc
    same 'its offsets' "$("$program" --offsets made_before.nc < /dev/null)" "$given"
    given=$("${as_user[@]}" "$archive/ncrun" "$archive/d.nc" < getting)
    status=$?
    ends 'gets of a dataset that is not to be written' 0 "$archive/d.nc" made_before.nc
    same 'its values' '0 get_var_all ok 1 2 3 4' "$(printf '%s' "$given" | sed -n 4p)"
    given=$("${as_user[@]}" "$archive/ncrun" "$archive/d.nc" < putting 2> /dev/null)
    status=$?
    ends 'a put to a dataset that is not to be written' 7 "$archive/d.nc" made_before.nc
    same 'its line' 'ncrun: disk fault' "$given"
    chmod 755 "$archive"
    rm -rf "$archive"
fi

# Of 64 ranks one makes many calls by itself, and 63 wait for it at a meeting: what they take of the processor's time is nothing.
waiting() {
    printf 'create 1\nranks 64\nhint threads %s\ndim x 4\nvar int v [x]\ndata\n' "$1"
    for rank in $(seq 0 63); do
        printf '%s begin_indep_data\n' "$rank"
    done
    for _ in $(seq 20000); do
        printf '0 put_var1 v [1] 7\n'
    done
    for rank in $(seq 0 63); do
        printf '%s end_indep_data\n' "$rank"
    done
    echo end
}

# milliseconds HINT: the processor's time of that run
milliseconds() {
    local TIMEFORMAT='%3U %3S' user system
    waiting "$1" > waiting
    read -r user system < <({ time "$program" waiting.nc < waiting > waiting.out; } 2>&1)
    echo $((10#${user/./} + 10#${system/./}))
}

alone=$(milliseconds off)
beside=$(milliseconds on)
same 'all calls are done while 63 ranks wait' 20128 "$(grep -c ' ok$' waiting.out)"
if [ "$beside" -le $((5 * alone + 3000)) ]; then
    same 'ranks that wait burn no time' yes yes
else
    same 'ranks that wait burn no time' "at most five times $alone ms and 3 s" "$beside ms"
fi
rm -f waiting waiting.out
