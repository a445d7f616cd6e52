# tools/cdl: CDL to a script and back, and what it refuses. Read by .ci/run, which has `same`, $root and $program.

given=$("$root/tools/cdl" script < "$root/.ci/data/weather.cdl" | tee weather.script | "$program" cdl.nc)
same 'a script made of CDL runs' 0 $?
same 'its header is the one that ncgen wrote' yes "$(cmp -s -n 328 cdl.nc "$root/.ci/data/weather.nc" && echo yes || echo no)"
same 'CDL of a script of CDL' "$(tr -d '[:space:]' < "$root/.ci/data/weather.cdl" | sed 's/10,20/10.,20./')" "$("$root/tools/cdl" cdl weather < weather.script | tr -d '[:space:]')"
letters=$("$root/tools/cdl" script < "$root/.ci/data/letters.cdl")
same 'a script of CDL of a script' "$letters" "$(printf '%s\n' "$letters" | "$root/tools/cdl" cdl letters | "$root/tools/cdl" script)"

# refused WHAT DIRECTION.. LINE: the text on standard input is refused by this line and status 1, and nothing is printed of it.
refused() {
    given=$("$root/tools/cdl" "${@:2:$#-2}" 2> cdl.said)
    same "$1 is refused" 1 $?
    same "$1: nothing is made" '' "$given"
    same "$1: why" "cdl: ${*: -1}" "$(cat cdl.said)"
}

head='create 1\nranks 1\ndim t unlimited\ndim x 4\nvar int v [x]\nvar short s [t,x]\ndata\n'
rest=': run it, and ncdump the file'
rest_of_script=': run the script, and ncdump the file'
refused 'a put of a part' cdl d "script line 8: the put doesn't go on where the last one of v ended$rest_of_script" < <(printf "${head}0 put_vara_all v [1] [2] 5 6\nend\n")
refused 'a block' cdl d "script line 8: the put doesn't go on where the last one of s ended$rest_of_script" < <(printf "${head}0 put_vara_all s [0,0] [2,2] 1 2 3 4\nend\n")
refused 'a variable that ends early' cdl d "the puts leave elements of v out, which the file has as zeros$rest_of_script" < <(printf "${head}0 put_vara_all v [0] [2] 5 6\nend\n")
refused 'a variable without a put' cdl d "no put gives v, which the file has as zeros$rest_of_script" < <(printf "${head}0 put_vara_all s [0,0] [1,4] 1 2 3 4\nend\n")
refused 'a post' cdl d "script line 8: iput_vara is no put of whole rows by put_var_all or put_vara_all$rest_of_script" < <(printf "${head}0 iput_vara 1 v [0] [4] 1 2 3 4\nend\n")
refused 'a script that opens' cdl d "script line 1: the script opens a dataset, which its text doesn't tell$rest" < <(printf 'open\nranks 1\ndata\nend\n')
refused 'a script of two ranks' cdl d "script line 2: the script has several ranks$rest" < <(printf 'create 1\nranks 2\ndata\nend\n')
refused 'a text that is no script' cdl d 'script line 1: netcdf is no word of a script' < "$root/.ci/data/weather.cdl"
refused 'a float past the greatest' script 'CDL line 5: 1e+39 is past the greatest float' < <(printf 'netcdf a {\nvariables:\n float v ;\ndata:\n v = 1e39 ;\n}\n')
refused 'a double past the greatest' script 'CDL line 4: 1e400 is past the greatest double' < <(printf 'netcdf a {\nvariables:\n float v ;\n v:a = 1e400 ;\n}\n')
refused 'a missing comma' script 'CDL line 4: , or ; is wanted, not 3' < <(printf 'netcdf a {\nvariables:\n float v ;\n v:a = 1 3 ;\n}\n')
refused 'a version that is none' script 7 '7 is no version: 1, 2 or 5' < "$root/.ci/data/weather.cdl"

# What is taken is the file: the values of a run, by ncdump where it is there.
printf "${head}0 put_vara_all v [0] [1] 5\n0 put_vara_all v [1] [3] 6 7 8\n0 put_vara_all s [0,0] [1,4] 1 2 3 4\n0 put_vara_all s [1,0] [2,4] 5 6 7 8 9 10 11 12\nend\n" > whole.script
same 'puts one after another are the whole variable' 'v=5,6,7,8;s=1,2,3,4,5,6,7,8,9,10,11,12;}' "$("$root/tools/cdl" cdl d < whole.script | sed '1,/^data/d' | tr -d '[:space:]')"
if command -v ncdump > /dev/null; then
    "$program" whole.nc < whole.script > /dev/null
    same 'and ncdump reads the same' "$(ncdump whole.nc | sed '1,/^data/d' | tr -d '[:space:]')" "$("$root/tools/cdl" cdl d < whole.script | sed '1,/^data/d' | tr -d '[:space:]')"
fi

same 'a control character in a name is shown' 'x\x1B[31m = 1.5' "$(printf 'x\033[31m = x3FC00000\n' | "$root/tools/cdl" numbers)"
