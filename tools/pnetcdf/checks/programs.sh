# shellcheck shell=bash disable=SC2154
# Programs that are right: script, run and replay give the same answers and file. Then programs that are broken.

# agree NAME SCRIPT: what PnetCDF answered, the run and the replay of that script, each on its own dataset
agree() {
    proved "$2.script" "proved_$1.nc" > "$2.text"
    same "$2: the run ends well" 0 $?
    same "$2: the answers" "$(cat "$2.codes")" "$(answers_of "$2.text")"
    replay "$2.script" "replayed_$1.nc" > "replayed_$2.text"
    same "$2: the text of the replay" "$(cat "$2.text")" "$(cat "replayed_$2.text")"
}

wait
for name in $right; do
    same "$name: the program ends well" 0 "$(cat "$name.status")"
    agree "$name" "$name"
    case $name in transpose | added | posts) agree "$name" "$name.1" ;; esac
    same "$name: the file" yes "$(yes_if "$tools/same_bytes" "$name.nc" "proved_$name.nc")"
    same "$name: the file of the replay" yes "$(yes_if "$tools/same_bytes" "$name.nc" "replayed_$name.nc")"
    same "$name: nothing is found" 0 "$("$tools/ncdiagnose" "$name".[0-3] > "$name.found"; echo $?)"
done

same 'buffered: the hints' 'hint cb_nodes 2
hint nc_header_align_size 512
hint nc_var_align_size 64' "$(grep '^hint' buffered.script)"

# ---- programs that are broken

found=$("$tools/ncdiagnose" overlap.[0-3])
same 'overlap: something is found' 1 $?
same 'overlap: the pair' '  overlap: call 0 of rank 0 (put_vara_all cell [0] [5]) and call 0 of rank 1 (put_vara_all cell [4] [5]) both put to cell[4]; 3 elements are put more than once in this step' \
    "$(printf '%s\n' "$found" | grep '^  overlap')"

same 'left_out: what is found' 'left_out.nc, created by 4 ranks:
  hangs: call 1 of rank 0 (put_vara_all heat [1,0] [1,4]) never came back
  hangs: call 1 of rank 1 (put_vara_all heat [1,4] [1,4]) never came back
  hangs: call 1 of rank 2 (put_vara_all heat [1,8] [1,4]) never came back
  ranks differ: as collective call 1 (counted from 0) rank 0 makes call 1, put_vara_all heat [1,0] [1,4], and rank 3 makes none and closes the dataset; PnetCDF waits there for ever' \
    "$("$tools/ncdiagnose" left_out.[0-3])"

same 'forgotten: what is found' 'forgotten.nc, created by 4 ranks:
  out of range: call 0 of rank 3 (put_vara_all counts [12] [2]) gives 33000 as its value 1, which no short holds; PnetCDF writes the fill value there
  never waited for: the request of call 2 of rank 1 (iput_var1 1 counts [7])' \
    "$("$tools/ncdiagnose" forgotten.[0-3])"

same 'no_word: what is told' "no_word.nc, created by 4 ranks: 4 calls in no_word.script
  rank 2: call 1, put_vard_all: a script has no word for its file type, which makes 1100 boxes: a script's call has at most 1024; the script ends before it" \
    "$(cat no_word.merged)"
same 'no_word: what is left' "$(cat no_word.codes)" "$("$program" proved.nc < no_word.script > left.text; answers_of left.text)"
