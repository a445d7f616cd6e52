# What standard error says: one line for each thing that there is to say, never on standard output.

# says NAME WANTED FILE SCRIPT: what the run of a script on a file says on standard error
says() {
    printf '%s\n' "$4" | "$program" "$3" > answered 2> said
    same "$1" "$2" "$(cat said)"
}

# refuses NAME WANTED SCRIPT: the same of a script with a fault, of which standard output has one line
refuses() {
    says "$1" "ncrun: $2" explained.nc "$3"
    same "$1: standard output" '1 yes' "$(wc -l < answered) $(grep -q '^ncrun: script line ' answered && echo yes)"
}

# define LINES: a script of two ranks with these lines before its calls, from line 3 on
define() {
    printf 'create 1\nranks 2\n%s\ndata\nend' "$1"
}

# call LINES: a script of two ranks and a vector of ints, with these calls from line 6 on
call() {
    printf 'create 1\nranks 2\ndim x 4\nvar int v [x]\ndata\n%s\nend' "$1"
}

# The word of a script that is refused, its place, and what is wanted. 1.5 has the bits x3FC00000 as a float, by IEEE 754.
refuses 'a decimal number' \
    "line 6, word 6: \`1.5\` is no such value; a float's values are given as bits, x3FC00000, and a double's as x3FF8000000000000" \
    "$(call '0 put_vara_all v [0] [1] 1.5')"
refuses 'a comment behind values' \
    'line 6, word 7: `#` is no such value; values are whole numbers, bits as x3FC00000, one text, or seq N A B, all of one kind' \
    "$(call '0 put_vara_all v [0] [1] 1 # one')"
refuses 'a comment behind a call' 'line 6, word 3: `#` is one word too many; a comment is a line of its own' "$(call '0 sync_numrecs # now')"
refuses 'a blank in a list' \
    'line 6, word 4: `[0,` is no list of sizes; START is sizes in brackets, with commas and without blanks, as [0,2]' \
    "$(call '0 get_vara_all v [0, 0] [1,1]')"
refuses 'a forgotten COUNT' \
    'line 6, word 5: `7` is no list of sizes; COUNT is sizes in brackets, with commas and without blanks, as [0,2]' \
    "$(call '0 put_vara_all v [0] 7')"
refuses 'a COUNT that nothing follows' \
    'line 6 ends behind word 4; COUNT is sizes in brackets, with commas and without blanks, as [0,2]' \
    "$(call '0 get_vara_all v [0]')"
refuses 'no part of a varn' 'line 6, word 4: `0` is no number of parts; a varn says first how many parts it has, from 1 to 1024' \
    "$(call '0 get_varn_all v 0')"
refuses 'the second COUNT of a varn' \
    'line 6, word 8: `3` is no list of sizes; COUNT is sizes in brackets, with commas and without blanks, as [0,2]' \
    "$(call '0 get_varn_all v 2 [0] [1] [2] 3')"
refuses 'a call with its prefix' \
    'line 6, word 2: `ncmpi_put_vara_all` is no call; a call is PnetCDF'\''s without ncmpi_ and without a type, as put_vara_all' \
    "$(call '0 ncmpi_put_vara_all v [0] [1] 1')"
refuses 'a call without its rank' 'line 6, word 1: `sync_numrecs` is no rank; after `data` a line begins with the number of a rank' \
    "$(call 'sync_numrecs')"
refuses 'a rank that is not there' 'line 6, word 1: `2` is no rank; the ranks are 0 to 1' "$(call '2 sync_numrecs')"
refuses 'an id that is none' 'line 6, word 4: `NC_REQ_ALL` is no id; `all` or ids are wanted' "$(call '0 wait_all 1 NC_REQ_ALL')"
refuses 'an id that is posted twice' 'line 7, word 3: `07` is there on line 6 already' \
    "$(call '0 iget_var 7 v
0 iget_var 07 v')"
refuses 'a text that is not closed' \
    'line 6, word 4: the text is not closed, or has another escape than \" \\ \n \t \xHH, or goes on behind its quote' \
    "$(call '0 put_var_all v "one')"
refuses 'a number of values that is none' \
    "line 6, word 5: \`2.5\` is no such value; a float's values are given as bits, x40200000, and a double's as x4004000000000000" \
    "$(call '0 put_var_all v seq 2.5 1 1')"
refuses 'a sequence that ends early' \
    'line 6 ends behind word 6; values are whole numbers, bits as x3FC00000, one text, or seq N A B, all of one kind' \
    "$(call '0 put_var_all v seq 4 1')"
refuses 'a sequence with a step that is none' \
    'line 6, word 8: `z` is no such value; values are whole numbers, bits as x3FC00000, one text, or seq N A B, all of one kind' \
    "$(call '0 put_vara_all v [0] [1] seq 4 z')"
refuses 'a word behind a text' 'line 6, word 5: `1` is one word too many' "$(call '0 put_var_all v "ab" 1')"
refuses 'an id behind all' 'line 6, word 4: `1` is one word too many' "$(call '0 wait_all all 1')"
refuses 'a COUNT before seq' \
    'line 6, word 5: `7` is no list of sizes; COUNT is sizes in brackets, with commas and without blanks, as [0,2]' \
    "$(call '0 put_vara_all v [0] 7 seq 1 1 1')"
refuses 'a version' 'line 1, word 2: `3` is no version; a version is 1, 2 or 5' 'create 3'
refuses 'a number of ranks' 'line 2, word 2: `128` is no number of ranks; there are 1 to 64' "$(printf 'create 1\nranks 128')"
refuses 'no head' 'line 1: a script begins with `create 1`, `create 2`, `create 5` or `open`' 'ranks 2'
refuses 'a byte-order mark' \
    'line 1: a script begins with `create 1`, `create 2`, `create 5` or `open`, and not with a byte-order mark' \
    "$(printf '\357\273\277create 1')"
refuses 'an empty script' 'the script is empty' '# nothing'
refuses 'a type' \
    'line 3, word 2: `ubyte` is no type; the types are byte, char, short, int, float, double, and in version 5 ubyte, ushort, uint, int64, uint64' \
    "$(define 'var ubyte v []')"
refuses 'a length' 'line 3, word 3: `UNLIMITED` is no length; a length is `unlimited`, or from 1 to below 2^31, in version 5 to below 2^62' \
    "$(define 'dim t UNLIMITED')"
refuses 'a name' 'line 3, word 3: `v(x)` is no name; a name has letters, digits and _ . - + @, and begins with a letter, a digit or _' \
    "$(define 'var int v(x)')"
refuses 'dimensions' 'line 3, word 4: `x` is no list of dimensions; dimensions stand in brackets, with commas and without blanks, as [t,x]' \
    "$(define 'var int v x')"
refuses 'a definition' 'line 3, word 1: `int` is no definition; before `data` a line begins with ranks, hint, fill, dim, var or att' \
    "$(define 'int v')"
refuses 'a hint' \
    'line 3, word 2: `cb_node` is no hint; the hints are cb_nodes cb_buffer_size ind_rd_buffer_size ind_wr_buffer_size line_room threads overlap nc_header_align_size nc_var_align_size striping_unit' \
    "$(define 'hint cb_node 2')"
refuses 'the value of a hint' 'line 3, word 3: `0` is no value of this hint; it is from 1 to 64' "$(define 'hint cb_nodes 0')"
refuses 'the unit of a hint' 'line 3, word 3: `10` is no value of this hint; it is a multiple of 4 from 4 to 1048576' \
    "$(define 'hint nc_var_align_size 10')"
refuses 'the word of a hint' 'line 3, word 3: `yes` is no value of this hint; it is `on` or `off`' "$(define 'hint threads yes')"
refuses 'a value of an attribute' 'line 3, word 5: `40000` is no such value; a short is a whole number from -32768 to 32767' \
    "$(define 'att : a short 40000')"
refuses 'a decimal attribute' \
    "line 3, word 5: \`-1.5\` is no such value; a float's values are given as bits, xBFC00000, and a double's as xBFF8000000000000" \
    "$(define 'att : a float -1.5')"
refuses 'a text without quotes' 'line 3, word 5: `title` is no such value; the values of a char are one text in quotes' \
    "$(define 'att : a char title')"
refuses 'a name that is given twice' 'line 5, word 2: `x` is there on line 3 already' "$(define 'dim x 4
dim y 4
dim x 5')"
refuses 'a dimension that is not defined' 'line 4: no line before it defines `y`' "$(define 'dim x 4
var int v [x,y]')"
refuses 'an owner that is not defined' 'line 3: no line before it defines `v`' "$(define 'att v a int 1')"
refuses 'two record dimensions' 'line 4: a dataset has one unlimited dimension, and `t` is it on line 3' "$(define 'dim t unlimited
dim u unlimited')"
refuses 'a record dimension behind another' 'line 5: the record dimension stands first in a variable, and once' "$(define 'dim t unlimited
dim x 4
var int v [x,t]')"
refuses 'no ranks' 'line 2: no line before `data` says how many ranks there are, as `ranks 2`' "$(printf 'create 1\ndata')"
refuses 'no data' 'line 3 is the last one; `data` and `end` are wanted behind it' "$(printf 'create 1\nranks 1\ndim x 4')"
refuses 'no end' 'line 4 is the last one; `end` is wanted behind it' "$(printf 'create 1\nranks 1\ndata\n0 sync_numrecs')"
refuses 'a line behind the end' 'line 6: `end` stands on line 5' "$(define '')
0 sync_numrecs"
refuses 'a control character' 'line 3, word 1: `\x1B[0m` is no definition; before `data` a line begins with ranks, hint, fill, dim, var or att' \
    "$(define "$(printf '\033[0m')")"

# Ranks that differ: the call of each, and its line.
refuses 'a rank that does not call' 'collective call 1 of each rank: rank 0 has `put_var_all` on line 8, rank 1 has none' \
    "$(call '0 sync_numrecs
1 sync_numrecs
0 put_var_all v 1 2 3 4')"
refuses 'ranks that call otherwise' 'collective call 0 of each rank: rank 0 has `get_var_all` on line 6, rank 1 has `sync_numrecs` on line 7' \
    "$(call '0 get_var_all v
1 sync_numrecs')"

# What a dataset does not take: the line, and the name.
printf '%s\n' "$(call '')" | "$program" explained.nc > /dev/null
same 'there is a dataset to add to' 0 $?
add() {
    says "$1" "ncrun: $2" explained.nc "$(printf 'open\nranks 1\n# comment\n%s\ndata\nend' "$3")"
}
add 'a dimension that is there' 'line 5: the dataset has a dimension `x` already' 'dim y 2
dim x 4'
add 'a variable that is there' 'line 4: the dataset has a variable `v` already' 'var int v [x]'
add 'a dimension that is not there' 'line 4: the dataset lacks a dimension of `[x,z]`' 'var int w [x,z]'
add 'an owner that is not there' 'line 4: the dataset has no variable `w`' 'att w a int 1'
add 'a type that it lacks' 'line 4: a dataset of version 1 or 2 has no type `int64`' 'var int64 w [x]'
add 'a length that it lacks' 'line 4: a dataset of version 1 or 2 has no dimension so long as `3000000000`' 'dim w 3000000000'

# A header that is refused: the field at fault, and whose it is. The places are those of the netCDF classic format: after the magic number and the record
# count the list of dimensions (tag 8, count 12, a name 16, its length 24), the dataset's attributes (28), and the list of variables (36): the name of v
# (44), its dimensions (52), its attributes (60), type (68), size (72) and begin (76).
# spoilt NAME WANTED AT BYTES: the same dataset with other bytes at a place
spoilt() {
    "$program" spoilt.nc < script > answered 2> said
    printf "$4" | dd of=spoilt.nc bs=1 seek="$3" conv=notrunc 2> said
    "$program" --offsets spoilt.nc > answered 2> said
    same "$1" "ncrun: $2" "$(cat said)"
    same "$1: standard output" '1 yes' "$(wc -l < answered) $(grep -q '^ncrun: header ' answered && echo yes)"
}
# cut_at NAME WANTED LENGTH: the same dataset, cut
cut_at() {
    "$program" spoilt.nc < script > answered 2> said
    head -c "$3" spoilt.nc > short.nc
    "$program" --offsets short.nc > answered 2> said
    same "$1" "ncrun: $2" "$(cat said)"
}
cut_at 'a header that is cut in a type' 'at byte 68 stands the type of variable 0 `v`, and the file has 70 bytes' 70
cut_at 'a header that is cut in a name' 'at byte 48 stands the name of variable 0, and the file has 49 bytes' 49
cut_at 'a header that is cut in a length' 'at byte 24 stands the length of dimension 0 `x`, and the file has 24 bytes' 24
cut_at 'an empty file' 'at byte 0 stands the magic number, and the file has 0 bytes' 0
spoilt 'a file that is no dataset' 'it begins with `GIF8`, and a classic dataset with `CDF`' 0 'GIF8'
spoilt 'a file of netCDF-4' \
    'it begins with `\x89HDF`, and a classic dataset with `CDF`; this is HDF5, and `nccopy -k cdf5` makes a classic dataset of one of netCDF-4' 0 '\x89HDF'
spoilt 'a version that is none' 'the fourth byte says version 4; there are 1, 2 and 5' 3 '\x04'
spoilt 'a tag' 'at byte 8 stands the tag of the dimensions: 13, and not 10, or 0 for none' 8 '\0\0\0\x0d'
spoilt 'the tag of the attributes of the dataset' 'at byte 28 stands the tag of the attributes of the dataset: 7, and not 12, or 0 for none' 28 '\0\0\0\x07'
spoilt 'the tag of the attributes of a variable' 'at byte 60 stands the tag of the attributes of variable 0 `v`: 7, and not 12, or 0 for none' 60 '\0\0\0\x07'
spoilt 'the tag of the variables' 'at byte 36 stands the tag of the variables: 12, and not 11, or 0 for none' 36 '\0\0\0\x0c'
spoilt 'a type that is none' 'at byte 68 stands the type of variable 0 `v`: 7; the types are 1 to 6, in version 5 to 11' 68 '\0\0\0\x07'
spoilt 'a length that is negative' 'at byte 24 stands the length of dimension 0 `x`, which is negative' 24 '\xff'
spoilt 'a begin that is negative' 'at byte 76 stands the begin of variable 0 `v`, which is negative' 76 '\x80'
spoilt 'a count behind the tag of none' 'at byte 32 stands the number of attributes of the dataset: 3, behind a tag that says that there are none' 32 '\0\0\0\x03'
spoilt 'a dimension that is not there' 'variable 0 `v` has the dimensions 7; those of the dataset count from 0 to 0' 56 '\0\0\0\x07'
spoilt 'a record count of a file that is being written' \
    'the number of records, at byte 4, is the one of a file that is being written, or whose writer did not close it' 4 '\xff\xff\xff\xff'
spoilt 'more dimensions than are read' \
    'what is read has at most 1024 dimensions, 8192 variables, 32 dimensions of a variable, 2^20 bytes of header, and 2^62 bytes' 12 '\0\0\x7d\0'
spoilt 'a variable inside the header' 'variable 0 `v` begins at byte 64, inside the header' 76 '\0\0\0\x40'
cp script one.script
# Two dimensions, of which the second has its length at byte 36, and two variables, with their begins at bytes 92 and 128.
printf '%s\n' "$(define 'dim x 4
dim y 2
var int v [x,y]
var byte w [y]')" > script
spoilt 'two record dimensions' 'dimension 0 `x` and dimension 1 `y` both have the length 0, by which a dimension grows, and one may' 24 '\0\0\0\0\0\0\0\x01y\0\0\0\0\0\0\0'
spoilt 'a record dimension that is not first' 'variable 0 `v` has the dimensions 0 1; dimension 1 `y` grows, and stands first in a variable, and once' 36 '\0\0\0\0'
spoilt 'variables that share bytes' 'variable 0 `v` begins at byte 132, and variable 1 `w` begins at byte 140' 128 '\0\0\0\x8c'
printf '%s\n' "$(printf 'create 5\nranks 1\ndim x 4\nvar int64 v [x]\natt v a short 1 2 3\ndata\nend')" > script
spoilt 'the type of an attribute' 'at byte 120 stands the type of attribute 0 `a` of variable 0 `v`: 12; the types are 1 to 6, in version 5 to 11' 120 '\0\0\0\x0c'
spoilt 'a dimension that is too long' 'at byte 36 stands the length of dimension 0 `x`: 4611686018427387905, which is above 2^62' 36 '\x40\0\0\0\0\0\0\x01'
mv one.script script

# A layout that a dataset can't have: the line of the variable, and why.
refuses_layout() {
    says "$1" "ncrun: $2" explained.nc "$3"
    same "$1: standard output" "1 ncrun: $4" "$(wc -l < answered) $(cat answered)"
}
refuses_layout 'a variable that is too large' 'line 4: `v` has more than 2^31 - 4 bytes, or a record of it has; datasets of version 5 take it' \
    "$(define 'dim x 1073741824
var int v [x]')" 'variable 0 is too large'
refuses_layout 'a variable behind a large one' 'line 5: `w` would begin at byte 2^31 or behind it; in datasets of version 2 and 5 it can' \
    "$(define 'dim x 2147483640
var byte v [x]
var byte w [x]')" 'variable 1 begins too far'
refuses_layout 'a variable behind the last byte' 'line 4: `v` would end at byte 2^62 or behind it' \
    "$(printf 'create 5\nranks 1\ndim x 4611686018427387903\nvar byte v [x]\ndata\nend')" 'variable 0 begins too far'
refuses_layout 'a header that is too large' 'its dimensions, variables and attributes take more than 2^20 bytes' \
    "$(define "att : a char \"$(printf '%1048600s' '')\"")" 'header is too large'
printf '%s\n' "$(call '')" | "$program" explained.nc > answered 2> said
refuses_layout 'an added variable that is too large' 'line 4: `w` has more than 2^31 - 4 bytes, or a record of it has; datasets of version 5 take it' \
    "$(printf 'open\nranks 1\ndim y 1073741824\nvar int w [y]\ndata\nend')" 'variable 1 is too large'

# A disk fault: the path, and the cause that the system gave.
says 'no folder' 'ncrun: `missing/d.nc`: No such file or directory (os error 2)' missing/d.nc "$(call '')"
says 'a folder' 'ncrun: `.`: Is a directory (os error 21)' . "$(call '')"
cp script explained.script
"$program" explained.script < explained.script > answered 2> said
same 'a script on itself' 'ncrun: `explained.script`: the file is standard input, output or error' "$(cat said)"

# A dataset that is shorter than its header says: 340 of 372 bytes, as ncvalidator counts them too. It is told once, since it is then made longer.
head -c 340 "$root/.ci/data/weather.nc" > short.nc
"$program" --offsets short.nc > answered 2> said
same 'a short dataset that is listed' 'ncrun: `short.nc` had 340 bytes, and its header says 372; what is missing reads as zeros' "$(cat said)"
short='ncrun: `short.nc` had 340 bytes, and its header says 372; it was made so long, and what was missing reads as zeros'
says 'a short dataset that is opened' "$short" short.nc "$(cat open)"
says 'it is whole then' '' short.nc "$(cat open)"
head -c 340 "$root/.ci/data/weather.nc" > short.nc
says 'a short dataset that is added to' "$short" short.nc "$(printf 'open\nranks 1\ndim more 2\nvar int m [more]\ndata\nend')"

# Values beyond those asked for, by each form.
beyond() {
    says "$1" "ncrun: line $2: $3 values are given and $4 asked for; what is beyond is left out" explained.nc "$5"
}
alone() {
    printf 'create 1\nranks 1\ndim t unlimited\ndim x 4\ndim y 2\nvar int v [x,y]\nvar char c [x]\nvar int r [t,x]\nvar int s []\ndata\n%s\nend' "$1"
}
beyond 'a box' 11 5 4 "$(alone '0 put_vara_all v [0,0] [2,2] 1 2 3 4 5')"
beyond 'one element' 11 2 1 "$(alone '0 put_var1_all v [0,0] 1 2')"
beyond 'a whole variable' 11 9 8 "$(alone '0 put_var_all v seq 9 1 1')"
beyond 'a scalar' 11 2 1 "$(alone '0 put_var_all s 1 2')"
beyond 'strides' 11 3 2 "$(alone '0 put_vars_all v [0,0] [2,1] [2,1] 1 2 3')"
beyond 'an index map' 11 5 4 "$(alone '0 put_varm_all v [0,0] [2,2] [1,1] [1,2] 1 2 3 4 5')"
beyond 'many boxes' 11 4 3 "$(alone '0 put_varn_all v 2 [0,0] [1,1] [1,0] [1,2] 1 2 3 4')"
beyond 'a text' 11 5 4 "$(alone '0 put_var_all c "a\x41\"\\e"')"
beyond 'a post' 11 2 1 "$(alone '0 iput_var1 1 v [0,0] 1 2
0 wait_all 1')"
says 'several calls' 'ncrun: line 11: 2 values are given and 1 asked for; what is beyond is left out, and so on 2 more lines' explained.nc \
    "$(alone '0 put_var1_all v [0,0] 1 2
0 put_var1_all v [0,0] 1 2
0 put_var1_all v [0,0] 1
0 put_var1_all v [0,0] 1 2')"
beyond 'a box, between tabs' 11 5 4 "$(alone "$(printf '0 put_vara_all v [0,0] [2,2] 1\t2\t3  4 5')")"
says 'as many as are asked for, between more blanks' '' explained.nc "$(alone "$(printf '0 put_vara_all v [0,0] [2,2]  1\t2   3  4 \r')")"
says 'as many as are asked for' '' explained.nc "$(alone '0 put_varm_all v [0,0] [2,2] [1,1] [1,2] 1 2 3 4
0 put_var_all v seq 8 1 1
0 put_var_all c "a\x41\"\\"
0 put_varn_all v 2 [0,0] [1,1] [1,0] [1,2] 1 2 3
0 put_var_all s 1')"
beyond 'a variable of an opened dataset' 4 9 8 "$(printf 'open\nranks 1\ndata\n0 put_var_all v seq 9 1 1\nend')"

# Requests that nobody waits for.
says 'a request' 'ncrun: rank 1 never waited for 1 request, so it was not done' explained.nc "$(call '1 iget_var 1 v')"
says 'requests of a rank' 'ncrun: rank 1 never waited for 2 requests, so they were not done' explained.nc "$(call '1 iget_var 1 v
1 iget_var 2 v')"
says 'requests of several ranks' 'ncrun: 2 ranks, the first of them rank 0, never waited for 3 requests, so they were not done' explained.nc "$(call '1 iget_var 1 v
0 iget_var 1 v
1 iget_var 2 v')"
says 'a request that is cancelled' '' explained.nc "$(call '1 iget_var 1 v
1 cancel all')"

# How far a run has come: on a terminal, where it takes more than a second, which begins before the script is read. Each line is written over, and the
# last one is cleared before text or an explanation.
terminal() {
    "$root/.ci/terminal.py" "$@" 2>&1
}
same 'a run on a terminal' '\r\x1b[Kncrun: 0 of at most 1 calls\r\x1b[K' "$(terminal 1.2 answered "$program" explained.nc < script)"
same 'its text, as without a terminal' "$("$program" explained.nc < script 2> /dev/null)" "$(cat answered)"
same 'a run that is told on the same terminal' '\r\x1b[Kncrun: 0 of at most 1 calls\r\x1b[Kranks 1\r\n' \
    "$(terminal 1.2 - "$program" explained.nc < script | sed 's/\(ranks 1\\r\\n\).*/\1/')"
printf '%s\n' "$(call '1 iget_var 1 v')" > posting
same 'a run that is explained on a terminal' \
    '\r\x1b[Kncrun: 0 of at most 1 calls\r\x1b[Kncrun: rank 1 never waited for 1 request, so it was not done\r\n' \
    "$(terminal 1.2 answered "$program" explained.nc < posting)"
same 'a script that is refused on a terminal' 'ncrun: the script is empty\r\n' "$(terminal 1.2 answered "$program" explained.nc < /dev/null)"
(sleep 1.2; cat script) | "$program" explained.nc > answered 2> said
same 'a run whose standard error is no terminal' '' "$(cat said)"
{ printf 'create 1\nranks 1\ndim x 4\nvar int v [x]\ndata\n'; yes '0 put_var1_all v [1] 7' | head -n 20000; echo end; } > long.script
began=$SECONDS
shown=$(terminal 1.2 answered "$program" explained.nc < long.script | grep -o 'of at most 20000 calls' | wc -l)
same 'a long run shows at most two lines a second' yes "$([ "$shown" -ge 1 ] && [ "$shown" -le $((2 * (SECONDS - began + 1))) ] && echo yes || echo "$shown")"
rm -f posting long.script spoilt.nc

# Where there is nothing to say, nothing is said, and nothing where a line would be written into the script or the dataset.
says 'a run that ends well' '' explained.nc "$(cat script)"
"$program" --generate 0 --size 1 explained.nc > answered 2> said
same 'a made run' '' "$(cat said)"
"$program" > answered 2> said
same 'words of no form' '' "$(cat said)"
cp explained.script said.script
"$program" missing/d.nc < said.script 2>> said.script > answered
same 'a script that is standard error' yes "$(cmp -s explained.script said.script && echo yes || echo no)"
cp short.nc said.nc
"$program" said.nc < open 2>> said.nc > answered
same 'a dataset that is standard error' yes "$(cmp -s short.nc said.nc && echo yes || echo no)"

# A standard error that is closed, full, or read by nobody changes no status and no text.
for error in '>&-' '> /dev/full' '> >(true)'; do
    given=$(eval "printf 'create 3\n' | \"\$program\" explained.nc 2$error")
    same "standard error $error: status" 3 $?
    same "standard error $error: text" 'ncrun: script line 1: bad number' "$given"
done
rm -f answered said said.script said.nc explained.script short.nc
