# A dataset that is also standard input, output or error. The program refuses it before it writes, so nothing that it names is lost. What the
# shell empties for > is gone before.

# whole NAME FILE WANTED: the file begins with the bytes of WANTED, and ends there or goes on with lines of the program
whole() {
    same "$1: the bytes that were there" yes "$(cmp -s -n "$(stat -c %s "$3")" "$2" "$3" && echo yes || echo no)"
    same "$1: what follows them" '' "$(tail -c "+$(($(stat -c %s "$3") + 1))" "$2" | grep -v '^ncrun: ')"
}

# refused NAME STATUS FILE WANTED: the run was a disk fault, and its file is whole
refused() {
    same "$1: status" 7 "$2"
    whole "$1" "$3" "$4"
}

cp making script_before
cp made_before.nc dataset_before
for name in its_name a_link a_hard_link /dev/stdin /proc/self/fd/0 ./its_name; do
    cp script_before its_name
    ln -s its_name a_link
    ln its_name a_hard_link
    given=$("$program" "$name" < its_name 2> /dev/null)
    refused "a script on itself as $name" $? its_name script_before
    same "its line as $name" 'ncrun: disk fault' "$given"
    "$program" its_name < a_link > /dev/null 2>&1
    refused "a script by a link on itself as $name" $? its_name script_before
    rm its_name a_link a_hard_link
done

# Standard output, and then standard error, which only takes lines of the program.
for name in its_name.nc a_link.nc a_hard_link.nc /dev/stdout /proc/self/fd/1; do
    cp dataset_before its_name.nc
    ln -s its_name.nc a_link.nc
    ln its_name.nc a_hard_link.nc
    cp script_before script_kept
    "$program" "$name" < script_kept >> its_name.nc 2> /dev/null
    refused "a dataset that is created, which is standard output, as $name" $? its_name.nc dataset_before
    same "its script as $name" yes "$(cmp -s script_kept script_before && echo yes || echo no)"
    "$program" "$name" < putting >> its_name.nc 2> /dev/null
    refused "a dataset that is opened, which is standard output, as $name" $? its_name.nc dataset_before
    "$program" "$name" < script_kept > its_name.nc 2> /dev/null
    same "a dataset that the shell empties, as $name: status" 7 $?
    same "a dataset that the shell empties, as $name: its text" 'ncrun: disk fault' "$(cat its_name.nc)"
    rm its_name.nc a_link.nc a_hard_link.nc script_kept
done
cp dataset_before kept.nc
"$program" kept.nc < making 2>> kept.nc > /dev/null
refused 'a dataset that is standard error' $? kept.nc dataset_before
cp dataset_before kept.nc
"$program" --generate 0 --size 1 kept.nc < kept.nc > /dev/null 2>&1
refused 'a made run on standard input' $? kept.nc dataset_before
"$program" --offsets kept.nc < kept.nc > /dev/null 2>&1
refused 'offsets of standard input' $? kept.nc dataset_before

# Other files, pipes and devices are no such files.
cp making copied.nc
"$program" copied.nc < making > /dev/null 2>&1
status=$?
ends 'a copy of the script is another file' 0 copied.nc dataset_before
cat making | "$program" piped.nc 2> /dev/null | cat > /dev/null
status=${PIPESTATUS[1]}
ends 'pipes' 0 piped.nc dataset_before
"$program" /dev/null < making > /dev/null 2>&1
same 'the null device is no dataset' 7 $?
same 'it is a device still' yes "$([ -c /dev/null ] && echo yes || echo no)"
rm -f kept.nc script_before dataset_before
