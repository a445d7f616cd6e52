# Runs whose answers and bytes are worked out by hand from the PnetCDF C API reference and the netCDF classic format. Each is
# run by the real program on a real file.

# answers_of TEXT: what a run prints before the offsets
answers_of() {
    printf '%s' "${1%%// file format*}"
}

# data_of FILE FROM: the file's bytes from a place on
data_of() {
    tail -c "+$(($2 + 1))" "$1" | od -An -v -tx1 | tr -d ' \n'
}

# bytes_from HEX: the bytes of a number in base 16 in which blanks may stand
bytes_from() {
    local digits=${1//[[:space:]]/}
    printf '%b' "$(printf '%s' "$digits" | sed 's/../\\x&/g')"
}

# run NAME FILE FROM SCRIPT ANSWERS DATA: runs the script on the file; its answers, and the file's bytes from a place on
run() {
    given=$(printf '%s\n' "$4" | "$program" "$2" 2> /dev/null)
    same "$1: status" 0 $?
    same "$1: answers" "$5
" "$(answers_of "$given")
"
    same "$1: bytes" "$6" "$(data_of "$2" "$3")"
}

# whole NAME FILE SCRIPT TEXT BYTES: runs the script on the file; its whole text, and all bytes of the file
whole() {
    given=$(printf '%s\n' "$3" | "$program" "$2" 2> /dev/null)
    same "$1: status" 0 $?
    same "$1: text" "$4" "$given"
    same "$1: bytes" "${5//[[:space:]]/}" "$(data_of "$2" 0)"
}

# kept NAME FILE TEXT BYTES: opens the file, adds nothing and calls nothing
kept() {
    whole "$1" "$2" "$(cat open)" "$empty
$3" "$4"
}

# either NAME FILE FROM SCRIPT ANSWERS DATA OTHER_ANSWERS OTHER_DATA: runs a script of which the independent calls of two ranks may come
# in either order. The file's bytes are those of the order that is printed.
either() {
    given=$(printf '%s\n' "$4" | "$program" "$2" 2> /dev/null)
    same "$1: status" 0 $?
    if [ "$(answers_of "$given")" = "$7" ]; then
        same "$1: bytes in the other order" "$8" "$(data_of "$2" "$3")"
    else
        same "$1: answers" "$5" "$(answers_of "$given")"
        same "$1: bytes" "$6" "$(data_of "$2" "$3")"
    fi
}

# exchanged TEXT: the same with the two independent calls of its order exchanged
exchanged() {
    printf '%s' "$1" | sed '2s/ \(s[0-9]*\.[0-9]*\) \(s[0-9]*\.[0-9]*\)/ \2 \1/'
}

# The header of `dim x 4`, `var int v [x]` has 80 bytes, and v begins there.
vector() {
    printf 'create 1\nranks %s\n%sdim x 4\nvar int v [x]\ndata\n%s\nend' "$1" "$2" "$3"
}

run 'two ranks write the halves' halves.nc 80 "$(vector 2 'hint cb_nodes 2
' '0 put_vara_all v [0] [2] 1 2
1 put_vara_all v [2] [2] 3 4')" 'ranks 2
order m0
rank 0
0 put_vara_all ok
pending 0
rank 1
0 put_vara_all ok
pending 0' 00000001000000020000000300000004

run 'two ranks write every other element' other.nc 80 "$(vector 2 'hint cb_nodes 1
hint cb_buffer_size 4
' '0 put_vars_all v [0] [2] [2] 1 3
1 put_vars_all v [1] [2] [2] 2 4')" 'ranks 2
order m0
rank 0
0 put_vars_all ok
pending 0
rank 1
0 put_vars_all ok
pending 0' 00000001000000020000000300000004

run 'what lies between strides stays' halves.nc 80 'open
ranks 1
hint cb_buffer_size 16
data
0 put_vars_all v [0] [2] [3] 7 8
end' 'ranks 1
order m0
rank 0
0 put_vars_all ok
pending 0' 00000007000000020000000300000008

run 'overlapping puts write nothing and are told to every rank' shared.nc 80 "$(vector 3 '' '0 put_vara_all v [0] [3] 1 2 3
1 put_vara_all v [2] [2] 8 9
2 put_vara_all v [0] [0]')" 'ranks 3
order m0
rank 0
0 put_vara_all overlap 0 0 1 0 88
pending 0
rank 1
0 put_vara_all overlap 0 0 1 0 88
pending 0
rank 2
0 put_vara_all overlap 0 0 1 0 88
pending 0' 00000000000000000000000000000000

run 'under the hint the later rank wins' serial.nc 80 "$(vector 3 'hint overlap serial
' '0 put_vara_all v [0] [3] 1 2 3
1 put_vara_all v [2] [2] 8 9
2 put_vara_all v [0] [0]')" 'ranks 3
order m0
rank 0
0 put_vara_all ok
pending 0
rank 1
0 put_vara_all ok
pending 0
rank 2
0 put_vara_all ok
pending 0' 00000001000000020000000800000009

run 'a refused rank takes part with nothing' refused.nc 80 "$(vector 2 '' '0 put_vara_all v [4] [0]
0 put_vara_all v [4] [1] 9
0 put_vara_all v [3] [2] 9 9
0 put_vars_all v [0] [1] [0] 9
1 put_vara_all v [0] [1] 5
1 put_vara_all v [0] [1] 5
1 put_vara_all v [0] [1] 5
1 put_vars_all v [0] [1] [1] 5')" 'ranks 2
order m0 m1 m2 m3
rank 0
0 put_vara_all ok
1 put_vara_all NC_EINVALCOORDS
2 put_vara_all NC_EEDGE
3 put_vars_all NC_ESTRIDE
pending 0
rank 1
0 put_vara_all ok
1 put_vara_all ok
2 put_vara_all ok
3 put_vars_all ok
pending 0' 00000005000000000000000000000000

# The header of `dim t unlimited`, `var short s [t]` has 80 bytes; a record has 2, since a single record variable is not padded.
records() {
    printf 'create 1\nranks %s\ndim t unlimited\nvar short s [t]\ndata\n%s\nend' "$1" "$2"
}

run 'a put grows the file and its record count' grown.nc 80 "$(records 1 '0 put_var1_all s [3] 7')" 'ranks 1
order m0
rank 0
0 put_var1_all ok
pending 0' 0000000000000007
same 'a record count of 4' 00000004 "$(data_of grown.nc 4 | cut -c1-8)"

run 'two record variables are padded' padded.nc 116 'create 1
ranks 1
dim t unlimited
var short s [t]
var int q [t]
data
0 put_var1_all s [1] 5
end' 'ranks 1
order m0
rank 0
0 put_var1_all ok
pending 0' 00000000000000000005000000000000

run 'an index map transposes' mapped.nc 96 'create 1
ranks 1
dim y 2
dim x 3
var int w [y,x]
data
0 put_varm_all w [0,0] [2,3] [1,1] [1,2] 1 2 3 4 5 6
0 get_varm_all w [0,0] [2,3] [1,1] [1,2]
0 get_var_all w
end' 'ranks 1
order m0 m1 m2
rank 0
0 put_varm_all ok
1 get_varm_all ok 1 2 3 4 5 6
2 get_var_all ok 1 3 5 2 4 6
pending 0' 000000010000000300000005000000020000000400000006

ten=$(for i in 0 1 2 3 4 5 6 7 8 9; do printf '0 iput_var1 %s v [%s] %s\n' $i $i $i; done)
run 'ten posted puts are done by one wait' ten.nc 80 "create 1
ranks 1
dim x 10
var int v [x]
data
$ten
0 wait_all all
0 wait_all 3
end" "ranks 1
order m0 m1
rank 0
$(for i in 0 1 2 3 4 5 6 7 8 9; do echo "$i iput_var1 ok"; done)
10 wait_all ok
$(for i in 0 1 2 3 4 5 6 7 8 9; do echo "  $i ok"; done)
11 wait_all ok
  3 NC_EINVAL_REQUEST
pending 0" "$(printf '0000000%x' 0 1 2 3 4 5 6 7 8 9)"

run 'the attached buffer' buffered.nc 80 "$(vector 1 '' '0 bput_var1 9 v [0] 1
0 buffer_attach 0
0 buffer_attach 8
0 buffer_attach 8
0 bput_vara 0 v [0] [2] 1 2
0 bput_var1 1 v [2] 3
0 buffer_detach
0 wait_all all
0 bput_var1 2 v [2] 3
0 cancel all
0 buffer_detach
0 buffer_detach')" 'ranks 1
order m0
rank 0
0 bput_var1 NC_ENULLABUF
1 buffer_attach NC_ENULLBUF
2 buffer_attach ok
3 buffer_attach NC_EPREVATTACHBUF
4 bput_vara ok
5 bput_var1 NC_EINSUFFBUF
6 buffer_detach NC_EPENDINGBPUT
7 wait_all ok
  0 ok
8 bput_var1 ok
9 cancel ok
  2 ok
10 buffer_detach ok
11 buffer_detach NC_ENULLABUF
pending 0' 00000001000000020000000000000000

run 'values that do not fit' types.nc 116 'create 1
ranks 1
dim x 2
var short s [x]
var float f [x]
data
0 put_var_all s 40000 1
0 put_var_all s "ab"
0 put_var_all f 1 2
0 put_var_all s 1
0 put_var_all f x7FC00001 x0
0 get_var_all f
end' 'ranks 1
order m0 m1 m2 m3 m4 m5
rank 0
0 put_var_all NC_ERANGE
1 put_var_all NC_ECHAR
2 put_var_all NC_EBADTYPE
3 put_var_all EMAPSIZE
4 put_var_all ok
5 get_var_all ok x7FC00001 x00000000
pending 0' 000000007fc0000100000000

run 'an aggregator for each byte' bytes.nc 80 "$(vector 1 'hint cb_nodes 64
hint line_room 1
' '0 put_var_all v 1 2 3 4')" 'ranks 1
order m0
rank 0
0 put_var_all ok
pending 0' 00000001000000020000000300000004

run 'sixty-four ranks put in one call' ranks.nc 80 "create 1
ranks 64
dim x 64
var int v [x]
data
$(for rank in $(seq 0 63); do echo "$rank put_var1_all v [$rank] $rank"; done)
end" "ranks 64
order m0
$(for rank in $(seq 0 63); do printf 'rank %s\n0 put_var1_all ok\npending 0\n' "$rank"; done)" "$(for rank in $(seq 0 63); do printf '%08x' "$rank"; done)"

# The elements of the two ranks differ, so the bytes are the same in either order.
text='ranks 2
order m0 s0.1 s1.1 m1
rank 0
0 begin_indep_data ok
1 put_vars ok
2 end_indep_data ok
pending 0
rank 1
0 begin_indep_data ok
1 put_vars ok
2 end_indep_data ok
pending 0'
either 'independent puts by data sieving' sieved.nc 80 "$(vector 2 '' '0 begin_indep_data
0 put_vars v [0] [2] [2] 1 3
0 end_indep_data
1 begin_indep_data
1 put_vars v [1] [2] [2] 2 4
1 end_indep_data')" "$text" 00000001000000020000000300000004 "$(exchanged "$text")" 00000001000000020000000300000004

run 'ranks in turn come in their order' turns.nc 80 "$(vector 2 'hint threads off
' '0 begin_indep_data
0 put_vars v [0] [2] [2] 1 3
0 end_indep_data
1 begin_indep_data
1 put_vars v [1] [2] [2] 2 4
1 end_indep_data')" "$text" 00000001000000020000000300000004

# Two ranks put to one element and read its neighbour: what stands there is what the later one put, and each of them reads what was put
# before.
one_element='ranks 2
order m0 s0.1 s1.1 m1 m2
rank 0
0 begin_indep_data ok
1 put_var1 ok
2 end_indep_data ok
3 get_var1_all ok %s
pending 0
rank 1
0 begin_indep_data ok
1 put_var1 ok
2 end_indep_data ok
3 get_var1_all ok %s
pending 0'
# shellcheck disable=SC2059
first=$(printf "$one_element" 6 6)
# shellcheck disable=SC2059
second=$(exchanged "$(printf "$one_element" 5 5)")
for turn in 1 2 3 4 5 6 7 8; do
    either "independent puts to one element ($turn)" element.nc 80 "$(vector 2 '' '0 begin_indep_data
0 put_var1 v [0] 5
0 end_indep_data
0 get_var1_all v [0]
1 begin_indep_data
1 put_var1 v [0] 6
1 end_indep_data
1 get_var1_all v [0]')" "$first" 00000006000000000000000000000000 "$second" 00000005000000000000000000000000
done

# A get reads what was put before it in the order.
put_and_get='ranks 2
order m0 s0.1 s1.1 m1
rank 0
0 begin_indep_data ok
1 put_var1 ok
2 end_indep_data ok
pending 0
rank 1
0 begin_indep_data ok
1 get_var1 ok %s
2 end_indep_data ok
pending 0'
# shellcheck disable=SC2059
first=$(printf "$put_and_get" 5)
# shellcheck disable=SC2059
second=$(exchanged "$(printf "$put_and_get" 0)")
for turn in 1 2 3 4 5 6 7 8; do
    either "an independent put and a get ($turn)" element.nc 80 "$(vector 2 '' '0 begin_indep_data
0 put_var1 v [0] 5
0 end_indep_data
1 begin_indep_data
1 get_var1 v [0]
1 end_indep_data')" "$first" 00000005000000000000000000000000 "$second" 00000005000000000000000000000000
done

run 'a value of 64 bits in CDF-5' wide.nc 128 'create 5
ranks 1
dim x 4
var uint64 v [x]
data
0 put_var1_all v [0] 18446744073709551615
0 get_var1_all v [0]
end' 'ranks 1
order m0 m1
rank 0
0 put_var1_all ok
1 get_var1_all ok 18446744073709551615
pending 0' ffffffffffffffff000000000000000000000000000000000000000000000000

run 'a wait by a list of ids' listed.nc 80 "$(vector 1 '' '0 iput_var1 0 v [0] 9
0 iget_var1 1 v [0]
0 iput_vara 2 v [0] [0]
0 wait_all 1 0 2 0 5')" 'ranks 1
order m0
rank 0
0 iput_var1 ok
1 iget_var1 ok
2 iput_vara null
3 wait_all ok
  1 ok 9
  0 ok
  2 null
  0 NC_EINVAL_REQUEST
  5 NC_EINVAL_REQUEST
pending 0' 00000009000000000000000000000000

text='ranks 2
order m0 s0.1 s1.2 m1
rank 0
0 begin_indep_data ok
1 put_var1 ok
2 inq_dimlen ok 3
3 end_indep_data ok
4 inq_dimlen ok 3
pending 0
rank 1
0 begin_indep_data ok
1 inq_dimlen ok 0
2 get_var1 NC_EINVALCOORDS
3 end_indep_data ok
4 inq_dimlen ok 3
pending 0'
either 'each rank knows a record count of its own' counts.nc 80 "$(records 2 '0 begin_indep_data
0 put_var1 s [2] 5
0 inq_dimlen t
0 end_indep_data
0 inq_dimlen t
1 begin_indep_data
1 inq_dimlen t
1 get_var1 s [2]
1 end_indep_data
1 inq_dimlen t')" "$text" 000000000005 "$(exchanged "$text")" 000000000005
same 'a record count of 3' 00000003 "$(data_of counts.nc 4 | cut -c1-8)"

run 'calls in the wrong mode' modes.nc 80 "$(vector 1 '' '0 put_var1 v [0] 1
0 begin_indep_data
0 put_var1_all v [0] 1
0 begin_indep_data
0 end_indep_data')" 'ranks 1
order m0 m1 m2 m3
rank 0
0 put_var1 NC_ENOTINDEP
1 begin_indep_data ok
2 put_var1_all NC_EINDEP
3 begin_indep_data NC_EINDEP
4 end_indep_data ok
pending 0' 00000000000000000000000000000000

run 'a cancelled put needs no record' cancelled.nc 80 "$(records 1 '0 iput_var1 0 s [5] 9
0 cancel 0
0 iput_var1 1 s [0] 4
0 wait_all all')" 'ranks 1
order m0
rank 0
0 iput_var1 ok
1 cancel ok
  0 ok
2 iput_var1 ok
3 wait_all ok
  1 ok
pending 0' 0004
same 'a cancelled put needs no record: its record count' 00000001 "$(data_of cancelled.nc 4 | cut -c1-8)"

run 'a request that is left is not written' left.nc 80 "$(vector 1 '' '0 iput_var1 0 v [0] 9')" 'ranks 1
order
rank 0
0 iput_var1 ok
pending 1' 00000000000000000000000000000000

run 'many regions in one call' parts.nc 80 "$(vector 1 '' '0 put_varn_all v 2 [3] [1] [0] [2] 7 8 9
0 get_varn_all v 2 [3] [1] [0] [1]
0 put_varn_all v 2 [0] [2] [1] [1] 1 2 3')" 'ranks 1
order m0 m1 m2
rank 0
0 put_varn_all ok
1 get_varn_all ok 7 8
2 put_varn_all ESELF
pending 0' 00000008000000090000000000000007

run 'a filled dataset' filled.nc 80 'create 1
ranks 1
fill
dim x 4
var int v [x]
data
0 put_var1_all v [1] 5
0 get_var_all v
end' 'ranks 1
order m0 m1
rank 0
0 put_var1_all ok
1 get_var_all ok -2147483647 5 -2147483647 -2147483647
pending 0' 80000001000000058000000180000001

run 'two ranks fill a record' share.nc 124 'create 1
ranks 2
dim t unlimited
dim x 3
var short s [t,x]
att s _FillValue short -1
data
0 fill_var_rec s 1
1 fill_var_rec s 1
end' 'ranks 2
order m0
rank 0
0 fill_var_rec ok
pending 0
rank 1
0 fill_var_rec ok
pending 0' 000000000000ffffffffffff

run 'a dataset to add to' added.nc 80 "$(vector 1 '' '0 put_var_all v 1 2 3 4')" 'ranks 1
order m0
rank 0
0 put_var_all ok
pending 0' 00000001000000020000000300000004
cp added.nc windows.nc
cp added.nc taken.nc

# The new header has 116 bytes: v moves there, and q stands behind it.
both='ranks 1
order m0 m1
rank 0
0 get_var_all ok 1 2 3 4
1 get_var_all ok 0 0 0 0
pending 0'

run 'a variable is added to an opened dataset' added.nc 116 'open
ranks 1
var short q [x]
data
0 get_var_all v
0 get_var_all q
end' "$both" 000000010000000200000003000000040000000000000000

run 'values move in windows' windows.nc 116 'open
ranks 1
hint ind_wr_buffer_size 6
var short q [x]
data
0 get_var_all v
0 get_var_all q
end' "$both" 000000010000000200000003000000040000000000000000
same 'and leave the same file' yes "$(cmp -s added.nc windows.nc && echo yes || echo no)"

whole 'a variable is added to records' grown.nc 'open
ranks 1
var int q [t]
data
0 get_var_all s
0 get_var_all q
end' 'ranks 1
order m0 m1
rank 0
0 get_var_all ok 0 0 0 7
1 get_var_all ok 0 0 0 0
pending 0
// file format: CDF-1
file header:
  size = 116 bytes
  extent = 116 bytes
dimensions:
  t = UNLIMITED // (4 currently)
fixed-size variables:
record variables:
  short s(t):
    start file offset = 116
    end file offset = 118
    size in bytes = 2
  int q(t):
    start file offset = 120
    end file offset = 124
    size in bytes = 4' '43444601 00000004 0000000a 00000001 00000001 74000000 00000000 00000000 00000000 0000000b 00000002
    00000001 73000000 00000001 00000000 00000000 00000000 00000003 00000004 00000074
    00000001 71000000 00000001 00000000 00000000 00000000 00000004 00000004 00000078
    00000000 00000000 00000000 00000000 00000000 00000000 00070000 00000000'

# A file that no tool writes: its dimensions are x of length 4, x unlimited, and y of length 3; its variable is v(x). The x of a
# new variable is the first one. The new header has 144 bytes: v moves there, and q of the dimensions 2 and 0 stands behind it.
dims='00000001 78000000 00000004 00000001 78000000 00000000 00000001 79000000 00000003'
bytes_from "43444601 00000000 0000000a 00000003 $dims 00000000 00000000
    0000000b 00000001 00000001 76000000 00000001 00000000 00000000 00000000 00000004 00000010 00000068
    00000001 00000002 00000003 00000004" > twins
wanted="43444601 00000000 0000000a 00000003 $dims 00000000 00000000 0000000b 00000002
    00000001 76000000 00000001 00000000 00000000 00000000 00000004 00000010 00000090
    00000001 71000000 00000002 00000002 00000000 00000000 00000000 00000004 00000030 000000a0
    00000001 00000002 00000003 00000004
    00000000 00000000 00000000 00000000 00000000 00000000 00000000 00000000 00000000 00000000 00000000 00000000"
run 'of two dimensions of one name the first is meant' twins 0 'open
ranks 1
var int q [y,x]
data
0 get_var_all q
end' 'ranks 1
order m0
rank 0
0 get_var_all ok 0 0 0 0 0 0 0 0 0 0 0 0
pending 0' "${wanted//[[:space:]]/}"
same 'its offsets' '// file format: CDF-1
file header:
  size = 144 bytes
  extent = 144 bytes
dimensions:
  x = 4
  x = UNLIMITED // (0 currently)
  y = 3
fixed-size variables:
  int v(x):
    start file offset = 144
    end file offset = 160
    size in bytes = 16
  int q(y, x):
    start file offset = 160
    end file offset = 208
    size in bytes = 48
record variables:' "$("$program" --offsets twins < /dev/null)"
rm -f twins

# Whole texts and whole files of runs that make a dataset. In the first one there are puts of a box, of a text and of bits.
whole 'puts go to their variables' variables.nc 'create 1
ranks 1
hint cb_nodes 4
dim y 2
dim x 3
var short w [y,x]
var char c [x]
var float f []
att w k byte 1
data
0 put_vara_all w [0,1] [2,2] 1 2 3 -4 5
0 put_vara_all c [1] [2] "hi"
0 put_vara_all f [] [] x3FC00000
0 put_vara_all w [1,0] [1,1] 7
end' 'ranks 1
order m0 m1 m2 m3
rank 0
0 put_vara_all ok
1 put_vara_all ok
2 put_vara_all ok
3 put_vara_all ok
pending 0
// file format: CDF-1
file header:
  size = 184 bytes
  extent = 184 bytes
dimensions:
  y = 2
  x = 3
fixed-size variables:
  short w(y, x):
    start file offset = 184
    end file offset = 196
    size in bytes = 12
  char c(x):
    start file offset = 196
    end file offset = 199
    size in bytes = 3
  float f:
    start file offset = 200
    end file offset = 204
    size in bytes = 4
record variables:' '43444601 00000000 0000000a 00000002 00000001 79000000 00000002 00000001 78000000 00000003 00000000 00000000
    0000000b 00000003 00000001 77000000 00000002 00000000 00000001 0000000c 00000001 00000001 6b000000 00000001 00000001 01000000
    00000003 0000000c 000000b8 00000001 63000000 00000001 00000001 00000000 00000000 00000002 00000004 000000c4
    00000001 66000000 00000000 00000000 00000000 00000005 00000004 000000c8
    00000001 00020007 0003fffc 00686900 3fc00000'

empty='ranks 1
order
rank 0
pending 0'

whole 'a dataset of records' none.nc "$(records 1 '' | sed '/^$/d')" "$empty
// file format: CDF-1
file header:
  size = 80 bytes
  extent = 80 bytes
dimensions:
  t = UNLIMITED // (0 currently)
fixed-size variables:
record variables:
  short s(t):
    start file offset = 80
    end file offset = 82
    size in bytes = 2" '43444601 00000000 0000000a 00000001 00000001 74000000 00000000 00000000 00000000
    0000000b 00000001 00000001 73000000 00000001 00000000 00000000 00000000 00000003 00000004 00000050'

whole 'a dataset in CDF-2' second.nc 'create 2
ranks 1
dim x 4
var int v [x]
data
end' "$empty
// file format: CDF-2
file header:
  size = 84 bytes
  extent = 84 bytes
dimensions:
  x = 4
fixed-size variables:
  int v(x):
    start file offset = 84
    end file offset = 100
    size in bytes = 16
record variables:" '43444602 00000000 0000000a 00000001 00000001 78000000 00000004 00000000 00000000
    0000000b 00000001 00000001 76000000 00000001 00000000 00000000 00000000 00000004 00000010 0000000000000054
    00000000 00000000 00000000 00000000'

whole 'a dataset in CDF-5' fifth.nc 'create 5
ranks 1
dim x 4
var uint64 v [x]
data
end' "$empty
// file format: CDF-5
file header:
  size = 128 bytes
  extent = 128 bytes
dimensions:
  x = 4
fixed-size variables:
  uint64 v(x):
    start file offset = 128
    end file offset = 160
    size in bytes = 32
record variables:" '43444605 0000000000000000 0000000a 0000000000000001 0000000000000001 78000000 0000000000000004 00000000 0000000000000000
    0000000b 0000000000000001 0000000000000001 76000000 0000000000000001 0000000000000000 00000000 0000000000000000
    0000000b 0000000000000020 0000000000000080
    0000000000000000 0000000000000000 0000000000000000 0000000000000000'

whole 'a hint aligns the variables' aligned.nc 'create 1
ranks 1
hint nc_var_align_size 64
dim x 3
var byte a [x]
var byte b [x]
data
end' "$empty
// file format: CDF-1
file header:
  size = 116 bytes
  extent = 128 bytes
dimensions:
  x = 3
fixed-size variables:
  byte a(x):
    start file offset = 128
    end file offset = 131
    size in bytes = 3
  byte b(x):
    start file offset = 192
    end file offset = 195
    size in bytes = 3
record variables:" "43444601 00000000 0000000a 00000001 00000001 78000000 00000003 00000000 00000000 0000000b 00000002
    00000001 61000000 00000001 00000000 00000000 00000000 00000001 00000004 00000080
    00000001 62000000 00000001 00000000 00000000 00000000 00000001 00000004 000000c0 $(printf '%0160d' 0)"

# A header of 80 bytes, behind which there is room up to byte 512.
front='43444601 00000000 0000000a 00000001 00000001 78000000 00000004 00000000 00000000
    0000000b 00000001 00000001 76000000 00000001 00000000 00000000 00000000 00000004 00000010'
room_text='// file format: CDF-1
file header:
  size = 80 bytes
  extent = 512 bytes
dimensions:
  x = 4
fixed-size variables:
  int v(x):
    start file offset = 512
    end file offset = 528
    size in bytes = 16
record variables:'
whole 'a hint aligns the header' roomy.nc 'create 1
ranks 1
hint nc_header_align_size 512
dim x 4
var int v [x]
data
end' "$empty
$room_text" "$front 00000200 $(printf '%0864d' 0) 00000000 00000000 00000000 00000000"

# A dataset that is opened keeps room behind its header, and bytes past its end; one that is shorter than its end gets zeros there. A list of
# offsets makes no file longer.
counted='00000001 00000002 00000003 00000004'
bytes_from "$front 00000200 $(printf '%0864d' 0) $counted" > there
kept 'room behind the header stays' there "$room_text" "$front 00000200 $(printf '%0864d' 0) $counted"
near_text=${room_text//512/80}
near_text=${near_text//528/96}
bytes_from "$front 00000050 $counted 6d6f7265" > there
kept 'bytes past the end stay' there "$near_text" "$front 00000050 $counted 6d6f7265"
bytes_from "$front 00000050 00000001 0000" > there
kept 'a short dataset gets zeros' there "$near_text" "$front 00000050 00000001 00000000 00000000 00000000"
bytes_from "$front 00000200" > there
given=$("$program" --offsets there < /dev/null)
same 'offsets of a short dataset: status' 0 $?
same 'offsets of a short dataset' "$room_text" "$given"
same 'offsets of a short dataset: its length' 80 "$(wc -c < there | tr -d ' ')"

# A variable of 2400000000 bytes passes what one of CDF-1 may have.
printf 'old' > there
given=$(printf 'create 1\nranks 1\ndim x 600000000\nvar int v [x]\ndata\nend\n' | "$program" there 2> /dev/null)
same 'a variable that is too large: status' 4 $?
same 'a variable that is too large: line' 'ncrun: variable 0 is too large' "$given"
same 'a variable that is too large: the file' old "$(cat there)"
rm -f there

given=$(printf 'open\nranks 1\ndim x 9\ndata\nend\n' | "$program" taken.nc 2> /dev/null)
same 'a name that is taken: status' 4 $?
same 'a name that is taken: its line' 'ncrun: redefinition 0: name taken' "$given"
same 'a name that is taken: the file' 00000001000000020000000300000004 "$(data_of taken.nc 80)"

given=$("$program" --offsets taken.nc < /dev/null)
same 'a list of offsets: status' 0 $?
same 'a list of offsets' '// file format: CDF-1
file header:
  size = 80 bytes
  extent = 80 bytes
dimensions:
  x = 4
fixed-size variables:
  int v(x):
    start file offset = 80
    end file offset = 96
    size in bytes = 16
record variables:' "$given"

# Eight ranks write bands of two fields, record after record, and read columns back.
given=$("$program" --generate 0 --size 1 made.nc < /dev/null)
same 'a made run of one record: status' 0 $?
same 'a made run of one record' 'generated 0 1
ranks 8
calls 56
collectives 3
put 129600
got 2880
refused 0
sum 1534141468080
records 1
file 388960' "$given"
same 'its file' 388960 "$(wc -c < made.nc | tr -d ' ')"

given=$("$program" --generate 0 made.nc < /dev/null)
same 'a made run of twelve records' 'generated 0 12
ranks 8
calls 320
collectives 14
put 1555200
got 34560
refused 0
sum 18415865808000
records 12
file 4665760' "$given"

given=$("$program" --generate=18446744073709551615 --size 00000000000000000001 made.nc < /dev/null)
same 'the greatest seed: status' 0 $?
same 'the greatest seed' 'generated 18446744073709551615 1' "${given%%
*}"

for words in '' '--help' '-d.nc' 'd.nc e.nc' '--size 3 made.nc' '--offsets --generate 0 made.nc' '--generate 0 --size 65 made.nc' '--generate 0' \
    '--generate 18446744073709551616 made.nc'; do
    # shellcheck disable=SC2086
    given=$("$program" $words < /dev/null)
    same "words of no form ($words): status" 2 $?
done
