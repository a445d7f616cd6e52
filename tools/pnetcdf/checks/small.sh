# shellcheck shell=bash disable=SC2154
# Small programs of corpus/: those that are right, and those that are wrong in one thing.

# right_file NAME: the dataset that the program left is that of the proved run of its only script
right_file() {
    proved "$1.script" "proved_$1.nc" > "$1.text"
    yes_if "$tools/same_bytes" "$1.nc" "proved_$1.nc"
}

for name in $small sparse; do
    same "$name: the program ends well" 0 "$(cat "$name.status")"
    same "$name: nothing is found" 'status 0' "$(found "$name" --seconds 200 | grep -v 'as in the proved run, and the same values in the file$' | grep -v '^  remark: ')"
done
for name in names_only packed_types many_variables; do
    same "$name: the file" yes "$(right_file "$name")"
done
same 'threads: each dataset of each thread' 8 "$(found threads | grep -c 'as in the proved run')"
same 'defined_later: the scripts' 'defined_later.nc, created by 4 ranks: 24 calls in defined_later.script, defined_later.part2.script, defined_later.part3.script' \
    "$(cat defined_later.merged)"
found defined_later --json defined_later.json > defined_later.found
same 'defined_later: a comparison of files after each part' '"compared": 3' "$(grep -o '"compared": [0-9]*' defined_later.json)"
kept=$(grep -o 'defined_later.0.before.[0-9]*' defined_later.0 | head -1)
printf '\77' | dd of="$kept" bs=1 seek=$(($(stat -c %s "$kept") - 1)) conv=notrunc 2> dd.out
same 'defined_later: another value before more was defined' 'defined_later.nc, created by 4 ranks:
  the file: before redefinition 1: heat[1,3] is 63, and 13 in the proved file
status 1' "$(found defined_later | grep -v '^  remark')"
same 'names_only: calls that PnetCDF refused' '  remark: ranks 0 to 3: enddef is left out 2 times, which PnetCDF refused with NC_ENOTINDEFINE' "$(grep remark names_only.merged)"
same 'attribute_between: a changed attribute' '  remark: the attribute units of heat is changed later, and has its last value from the start' "$(grep remark attribute_between.merged)"
same 'same_time: puts of equal values' '  remark: overlap of equal values: call 0 of rank 0 (put_var1_all time [0]) and call 0 of rank 1 (put_var1_all time [0]) both put to time[0]
  remark: overlap of equal values: call 2 of rank 0 (put_var1_all time [1]) and call 2 of rank 1 (put_var1_all time [1]) both put to time[1]' \
    "$(found same_time | grep overlap)"
same 'long_put: posts that are waited for at once' '2 iput_vara
2 wait_all' "$(awk '$1 == 0 && $2 ~ /^iput|^wait/ { n[$2]++ } END { for (w in n) print n[w], w }' long_put.script | sort -k 2)"
same 'long_put: nothing is found' 'status 0' "$(found long_put --seconds 200 | grep -v 'as in the proved run')"
same 'unsigned_attribute: what is told' 'unsigned_attribute.nc, created by 4 ranks: 4 calls as in the proved run, and the same values in the file
unsigned_attribute.nc, created by 4 ranks:
  no script: a script has no word for dimension wide of length 2147483648: it is below 2^31 there in CDF-2
status 1' "$(found unsigned_attribute)"
same 'renamed: what is told' 'renamed.nc, created by 4 ranks: 4 calls as in the proved run, and the same values in the file
renamed.nc, opened by 4 ranks:
  not told: the attribute units of heat is deleted, and a script only adds
  not told: the variable heat is renamed to warmth, and a script only adds
renamed.nc.other, created by 4 ranks:
'"  no script: a script has no word for the name of a dimension, 'größe': it has other characters than a script's names
status 1" "$(found renamed)"
same 'converted: what is found' 'converted.nc, created by 4 ranks:
  out of range: call 0 of rank 3 (put_vara_all whole [6] [2]) gives as its value 1 what no short holds; PnetCDF writes the fill value there
  out of range: call 1 of rank 3 (put_vara_all real [6] [2]) gives as its value 1 what no float holds; PnetCDF writes the fill value there
status 1' "$(found converted)"
same 'barrier_order: what is found' 'barrier_order.nc, created by 4 ranks:
  values: call 1 of rank 0 (get_var1 heat [0]) got 11, and 0 in the proved run; a barrier alone stands between it and call 1 of rank 1 (put_var1 heat [0]), and MPI promises no order there without ncmpi_sync
status 1' "$(found barrier_order)"
same 'reused_buffer: what is found' '4 memory
status 1' "$(found reused_buffer | sed -n 's/^  \(memory\): the values of call 0 of .*/\1/p; /^status/p' | uniq -c | sed 's/^ *\([0-9]*\) memory/\1 memory/; s/^ *1 status/status/')"
same 'killed: what is found' 'killed.nc, created by 4 ranks:
  not told: rank 1: its trace ends after call 0, put_var1_all heat [1]: the rank was killed, or it crashed outside of PnetCDF
status 1' "$(found killed | grep -v '^  remark')"
