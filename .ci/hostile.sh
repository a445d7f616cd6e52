# Headers and scripts that are refused. A header is read by the real program in 32 MiB: nothing is allocated by a number before what it counts was
# read. The places of the fields are those of the netCDF classic format.

# little NAME DATASET STATUS TEXT: what a list of the dataset's offsets answers in little memory
little() {
    given=$(ulimit -v 32768 && "$program" --offsets "$2" < /dev/null 2> /dev/null)
    same "$1: status" "$3" $?
    same "$1: text" "$4" "$given"
}

# refused NAME FAULT: a list of the offsets of the file `most`, and a script that opens it, are answered with this fault of its header; the file stays
refused() {
    cp most before
    little "$1" most 4 "ncrun: header $2"
    given=$("$program" most < open 2> /dev/null)
    same "$1, opened: status" 4 $?
    same "$1, opened: line" "ncrun: header $2" "$given"
    same "$1: the file" yes "$(cmp -s most before && echo yes || echo no)"
}

# changed HEADER NUMBER AT: makes the file `most` of the header with this number in place of its own at a byte
changed() {
    local digits=${1//[[:space:]]/}
    bytes_from "${digits:0:2*$3}$2${digits:2*$3+${#2}}" > most
    name="$2 at byte $3 of version ${digits:6:2}"
}

# most HEADER NUMBER AT FAULT: the header so changed is refused
most() {
    changed "$1" "$2" "$3"
    refused "$name" "$4"
}

# rows HEADER: the header is refused with each change of a row: a place, the number there and the fault
rows() {
    while read -r at number fault; do
        most "$1" "$number" "$at" "$fault"
    done
}

# taken HEADER NUMBER AT TEXT: the header so changed is listed
taken() {
    changed "$1" "$2" "$3"
    little "$name" most 0 "$4"
}

# prefixes HEADER FIELD..: a header that is cut is told by the place at which the field begins that is cut. The last field is the header's end.
prefixes() {
    local length
    bytes_from "$1" > entire
    shift
    while [ $# -gt 1 ]; do
        for length in $(seq "$1" $(($2 - 1))); do
            head -c "$length" entire > most
            refused "$length bytes" "truncated at byte $1"
        done
        shift
    done
    same 'the length of a header' "$1" "$(wc -c < entire | tr -d ' ')"
}

# refuses SCRIPT LINE: a script, spelled as for printf, is answered with this line; the dataset stays
refuses() {
    given=$(printf '%b' "$1" | "$program" kept 2> /dev/null)
    same "the script $1: status" 3 $?
    same "the script $1: line" "ncrun: script line $2" "$given"
    same "the script $1: the file" old "$(cat kept)"
}

# One dimension, depth of 4; an attribute k of the shorts 1 2 3; one variable v of ints over depth, with an attribute u of the char m.
front='00000000 0000000a 00000001 00000005 6465707468000000 00000004
    0000000c 00000001 00000001 6b000000 00000003 00000003 0001000200030000
    0000000b 00000001 00000001 76000000 00000001 00000000
    0000000c 00000001 00000001 75000000 00000002 00000001 6d000000 00000004 00000010'
classic="43444601 $front 00000080"
far="43444602 $front 0000000000000084"
wide='43444605 0000000000000000 0000000a 0000000000000001 0000000000000005 6465707468000000 0000000000000004
    0000000c 0000000000000001 0000000000000001 6b000000 00000003 0000000000000003 0001000200030000
    0000000b 0000000000000001 0000000000000001 76000000 0000000000000001 0000000000000000
    0000000c 0000000000000001 0000000000000001 75000000 00000002 0000000000000001 6d000000
    00000004 0000000000000010 00000000000000c0'

# offsets VERSION SIZE BEGIN LENGTH END BYTES: the list of such a header's offsets, by its dimension's length
offsets() {
    printf '%s' "// file format: CDF-$1
file header:
  size = $2 bytes
  extent = $3 bytes
dimensions:
  depth = $4
fixed-size variables:
  int v(depth):
    start file offset = $3
    end file offset = $5
    size in bytes = $6
record variables:"
}

bytes_from "$wide" > most
little 'a header that is right' most 0 "$(offsets 5 192 192 4 208 16)"

# Where the greatest count of attributes is read, what follows the first one is taken for the second.
while read -r at fault; do
    most "$classic" 7fffffff "$at" "$fault"
    most "$far" 7fffffff "$at" "$fault"
done <<'ROWS'
12 is too large
16 truncated at byte 20
36 has a bad type at byte 124
40 truncated at byte 44
52 truncated at byte 56
68 is too large
72 truncated at byte 76
80 is too large
84 has a bad dimension id in variable 0
92 has a bad type at byte 124
96 truncated at byte 100
108 truncated at byte 112
ROWS

# A begin of 2^63 - 1 passes the greatest place.
most "$far" 7fffffffffffffff 124 'is too large'

# A tag is taken for the first half of the length of a second attribute's name.
while read -r at fault; do
    most "$wide" 7fffffffffffffff "$at" "$fault"
done <<'ROWS'
4 is too large
16 is too large
24 truncated at byte 32
40 has a bad number at byte 40
52 truncated at byte 100
60 truncated at byte 68
76 truncated at byte 84
96 is too large
104 truncated at byte 112
116 is too large
124 has a bad dimension id in variable 0
136 truncated at byte 180
144 truncated at byte 152
160 truncated at byte 168
184 is too large
ROWS

# The greatest numbers that count nothing are taken: of records, of a dimension, of a stored size and of a begin.
taken "$classic" 7fffffff 4 "$(offsets 1 128 128 4 144 16)"
taken "$classic" 7fffffff 28 "$(offsets 1 128 128 2147483647 8589934716 8589934588)"
taken "$classic" 7fffffff 120 "$(offsets 1 128 128 4 144 16)"
taken "$classic" 7fffffff 124 "$(offsets 1 128 2147483647 4 2147483663 16)"
taken "$wide" 7fffffffffffffff 176 "$(offsets 5 192 192 4 208 16)"

# A name and the values of an attribute are one field with their padding. In the second version a variable's begin has eight bytes; in the fifth all
# numbers but tags and types have.
fields='0 4 8 12 16 20 28 32 36 40 44 48 52 56 64 68 72 76 80 84 88 92 96 100 104 108 112 116 120 124'
# shellcheck disable=SC2086
prefixes "$classic" $fields 128
# shellcheck disable=SC2086
prefixes "$far" $fields 132
prefixes "$wide" 0 4 12 16 24 32 40 48 52 60 68 72 76 84 92 96 104 112 116 124 132 136 144 152 156 160 168 172 176 184 192

# Headers that end behind a count.
while read -r number fault; do
    bytes_from "$number" > most
    refused "$number" "$fault"
done <<'ROWS'
43444601000000000000000a7fffffff is too large
43444601000000000000000a00000400 truncated at byte 16
434446020000000000000000000000000000000c7fffffff truncated at byte 24
430046 truncated at byte 0
ROWS

# `dim x 4`, `var int v [x]` in two versions, and with uint64 in the third.
small='00000000 0000000a 00000001 00000001 78000000 00000004 00000000 00000000
    0000000b 00000001 00000001 76000000 00000001 00000000 00000000 00000000 00000004 00000010'

# The second dimension has no name and is that of the records; behind it stands the tag of the variables. The second of many attributes has the type 0.
rows "43444601 $small 00000050" <<'ROWS'
0 58444601 is not CDF
0 89484446 is not CDF
3 03 has an unknown version
4 ffffffff has a streaming record count
4 fffffffe has a bad number at byte 4
8 0000000b has a bad tag at byte 8
8 00000000 has a bad number at byte 12
12 80000000 has a bad number at byte 12
12 7fffffff is too large
12 00000002 has a bad tag at byte 36
28 0000000c7fffffff has a bad type at byte 64
52 00000021 is too large
56 00000005 has a bad dimension id in variable 0
64 00000001 has a bad number at byte 64
68 00000007 has a bad type at byte 68
76 0000004c has shared bytes of variables 0 and 0
ROWS

rows "43444602 $small 0000000000000054" <<'ROWS'
0 63646602 is not CDF
3 04 has an unknown version
4 ffffffff has a streaming record count
4 80000000 has a bad number at byte 4
8 0000000c has a bad tag at byte 8
8 00000000 has a bad number at byte 12
12 80000000 has a bad number at byte 12
12 00000401 is too large
12 00000002 has a bad tag at byte 36
28 0000000c7fffffff has a bad type at byte 64
40 00002001 is too large
52 00000021 is too large
56 00000001 has a bad dimension id in variable 0
64 00000001 has a bad number at byte 64
68 0000000b has a bad type at byte 68
76 0000000000000053 has shared bytes of variables 0 and 0
ROWS

# 2^62 records. The second dimension has no name and the length 11; a zero tag follows, with a count of 2^32. The first of many attributes has a name
# of 11 * 2^32 bytes.
rows '43444605 0000000000000000 0000000a 0000000000000001 0000000000000001 78000000 0000000000000004 00000000 0000000000000000
    0000000b 0000000000000001 0000000000000001 76000000 0000000000000001 0000000000000000 00000000 0000000000000000
    0000000b 0000000000000020 0000000000000080' <<'ROWS'
0 43644605 is not CDF
3 00 has an unknown version
4 ffffffffffffffff has a streaming record count
4 ffffffff00000000 has a bad number at byte 4
4 4000000000000000 is too large
12 0000000b has a bad tag at byte 12
12 00000000 has a bad number at byte 16
16 8000000000000000 has a bad number at byte 16
16 0000000000000401 is too large
16 0000000000000002 has a bad number at byte 64
44 0000000c7fffffffffffffff truncated at byte 64
60 0000000000002001 is too large
80 0000000000000021 is too large
88 0000000100000000 has a bad dimension id in variable 0
100 0000000000000001 has a bad number at byte 100
108 0000000c has a bad type at byte 108
120 000000000000007f has shared bytes of variables 0 and 0
ROWS

# The stored size of a variable, the tag of an empty list, and padding: none of them is looked at.
list=$(offsets 1 80 80 4 96 16 | sed 's/depth/x/')
taken "43444601 $small 00000050" ffffffff 72 "$list"
taken "43444601 $small 00000050" 0000000c 28 "$list"
taken "43444601 $small 00000050" 78010203 20 "$list"

# The greatest count, and more attributes without a name and a value than a header of 2^20 bytes has room for.
bytes_from '00000000 00000001 00000000' > attributes
for _ in $(seq 17); do
    cat attributes attributes > twice
    mv twice attributes
done
{
    bytes_from '43444601 00000000 00000000 00000000 0000000c 7fffffff'
    cat attributes
} > most
little 'a header that goes on and on' most 4 'ncrun: header is too large'
rm -f most before entire attributes

# A script of one blank more than a script may have bytes.
printf 'old' > kept
given=$(head -c 67108865 < /dev/zero | tr '\0' ' ' | "$program" kept 2> /dev/null)
same 'a script that is too long: status' 3 $?
same 'a script that is too long: line' 'ncrun: script line 1: limit of script' "$given"
same 'a script that is too long: the file' old "$(cat kept)"

refuses '' '1: no head'
refuses 'create 18446744073709551615\n' '1: bad number'
refuses 'create 1\nranks 18446744073709551616\n' '2: bad number'
refuses 'create 1\nranks 1\n\xff\n' '3: not utf-8'
refuses 'create 1\nranks 1\n\0\n' '3: unknown word'
refuses 'create 5\nranks 1\ndim x 9223372036854775807\n' '3: bad number'
refuses "create 1\nranks 1\ndim x 4\nvar int v [$(printf 'x,%.0s' $(seq 32))x]\n" '4: limit of vardims'
refuses 'create 1\nranks 1\natt : a int seq 9223372036854775807 0 0\n' '3: limit of values'
refuses 'create 1\nranks 1\natt : a float seqx 2 xFFFFFFFFFFFFFFFF x1\n' '3: bad number'
refuses 'create 1\nranks 1\ndata\n0 put_var_all v seq 1048577 0 0\nend\n' '4: limit of elements'
refuses 'create 1\nranks 1\ndata\n0 put_var_all v seq 9223372036854775807 0 0\nend\n' '4: limit of elements'
refuses 'create 1\nranks 1\ndata\n0 put_var_all v "ab\\\nend\n' '4: bad text'
refuses 'create 1\nranks 1\ndata\n0 put_var_all v "ab\\x4"\nend\n' '4: bad text'
refuses 'create 1\nranks 1\ndata\n0 put_var_all v "ab\\' '4: bad text'
refuses 'create 1\nranks 1\ndata\n0 get_varn_all v 9223372036854775807 [0] [1]\nend\n' '4: limit of parts'
refuses 'create 1\nranks 1\ndata\n0 get_var1_all v [9223372036854775808]\nend\n' '4: bad number'
refuses 'create 1\nranks 1\ndata\n0 iget_var 4294967296 v\nend\n' '4: bad number'
refuses 'create 1\nranks 1\ndata\n99999999999999999999999999 get_var_all v\nend\n' '4: no such rank'
refuses 'create 1\nranks 2\ndim x 4\nvar int v [x]\ndata\n0 iput_var1 0 v [0] 9\n0 wait_all all\nend\n' '8: ranks 0 and 1 differ at collective call 0'
refuses 'create 1\nranks 2\ndim x 4\nvar int v [x]\ndata\n0 put_vara_all v [0] [2] 1 2\n1 put_vara_all v [2] [2] 3 4\n' '8: no end'
refuses 'create 1\nranks 2\ndim x 4\nvar int v [x]\ndata\n0 put_vara_all v [0] [2] 1 2\n1 put_vara_all v [2] [2] 3 4\nend\nx\n' '9: text after end'
rm -f kept
