# shellcheck shell=bash disable=SC2154
# The tools on MPICH, with a PnetCDF that was built on it: PNETCDF_ON_MPICH names its folder. corpus/run --mpich builds one.

if [ -n "${PNETCDF_ON_MPICH:-}" ]; then
    there=$room/on_mpich
    make -s -j4 -C "$tools" BUILD="$there" MPICC=mpicc.mpich PNETCDF="$PNETCDF_ON_MPICH" tests corpus > on_mpich.out 2>&1
    same 'on MPICH: the tools are built' '' "$(cat on_mpich.out)"

    # on_mpich WORD..: nccheck's verdict, and its status
    on_mpich() {
        "$tools/nccheck" --keep mpich --seconds 60 --library "$there/libnctrace.so" mpiexec.mpich -n 4 "$@" 2> on_mpich.err
        echo "status $?"
    }

    same 'on MPICH: a right program' 'mpich.nc, created by 4 ranks: 12 calls as in the proved run, and the same values in the file
status 0' "$(on_mpich "$there/halo" mpich.nc)"
    NCTRACE=mpich/trace LD_PRELOAD=$there/libnctrace.so timeout -k 2 60 mpiexec.mpich -n 2 "$there/halo" mpich.nc
    same 'on MPICH: traces of an earlier run' 'mpich/trace.2 is of an earlier run, and left out
mpich/trace.3 is of an earlier run, and left out
mpich.nc, created by 2 ranks: 6 calls as in the proved run, and the same values in the file' "$("$tools/ncdiagnose" mpich/trace.[0-3])"
    same 'on MPICH: a wrong program' '  overlap
status 1' "$(on_mpich "$there/overlap" mpich.nc | sed -n 's/^\(  overlap\): call 0 .*/\1/p; /^status/p')"
    same 'on MPICH: a program that fails, with right calls' 'status 3' "$(on_mpich sh -c "'$there/halo' mpich.nc; exit 7" | grep '^status')"
    same 'on MPICH: more that is defined' 'status 0' "$(on_mpich "$there/corpus/defined_later" mpich.nc | grep -v '^  remark\|as in the proved run')"
fi
