# shellcheck shell=bash disable=SC2154
# The command nccheck with each of its statuses, and what is installed.

# checked WORD..: nccheck's lines, and its status
checked() {
    "$tools/nccheck" --library "$build/libnctrace.so" "$@" 2> checked.err
    echo "status $?"
}

# shellcheck disable=SC2086
{
    same 'nccheck: a right program' 'checked.nc, created by 4 ranks: 12 calls as in the proved run, and the same values in the file
status 0' "$(checked --keep kept $mpiexec -n 4 "$build/halo" checked.nc)"
    same 'nccheck: a wrong program' '  overlap: call
status 1' "$(checked --json checked.json $mpiexec -n 4 "$build/overlap" checked.nc | sed -n 's/^\(  overlap: call\) 0 of.*/\1/p; /^status/p')"
    same 'nccheck: a program that fails, with right calls' 'the program ended with status 7
checked.nc, created by 4 ranks: 12 calls as in the proved run, and the same values in the file
status 3' "$(checked $mpiexec -n 4 sh -c "'$build/halo' checked.nc; exit 7" | grep -v '^[- ]\|^mpi\|^Primary\|^ *$')"
    same 'nccheck: a program that is ended' 'the program was ended after 12 seconds
  ranks differ
status 1' "$(checked --seconds 12 $mpiexec -n 4 "$build/left_out" checked.nc | sed -n 's/^\(  ranks differ\):.*/\1/p; /^the program/p; /^status/p')"
}
same 'nccheck: no call' 'status 2' "$(checked true)"
same 'nccheck: no command' 'status 2' "$(checked --seconds 0 true)"
same 'nccheck: the traces that are kept' 4 "$(cat kept/trace.[0-3] | grep -c '"nctrace":')"
same 'nccheck: the times of calls' 12 "$(grep -A 1 '"call":"put_vara_int_all","time":[0-9.]*' kept/trace.[0-3] | grep -c '"took":[0-9.]*}')"
same 'nccheck: findings for programs' '"kind": "overlap"' "$(grep -o '"kind": "overlap"' checked.json)"
same 'ncdiagnose: a run that takes too long' "ncdiagnose: $room/sleeps didn't end in 1 seconds; --seconds gives it more
status 2" "$(printf '#!/bin/sh\nexec sleep 20\n' > sleeps; chmod +x sleeps; NCRUN=$room/sleeps found appends --seconds 1)"

make -s -C "$tools" BUILD="$build" PREFIX="$room/installed" install > install.out 2>&1
same 'install: what is said' '' "$(cat install.out)"
for tool in nccheck ncdiagnose ncmerge ncreport; do
    same "install: the version of $tool" "$tool 1.0" "$(installed/bin/$tool --version)"
done
for tool in nccheck ncdiagnose ncmerge ncreport ncreplay nctrace; do
    same "install: the manual of $tool" yes "$(yes_if grep -q "^\.TH" installed/share/man/man1/$tool.1)"
done
# shellcheck disable=SC2086
same 'install: the installed nccheck' 'status 0' "$(installed/bin/nccheck $mpiexec -n 4 "$build/halo" checked.nc > installed.said; echo "status $?")"
make -s -C "$tools" PREFIX="$room/installed" uninstall
same 'install: what is left of it' '' "$(find installed ! -type d)"
