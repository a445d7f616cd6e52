# shellcheck shell=bash disable=SC2154
# Tracer and replay under the sanitizers of addresses and of undefined behaviour, which stay quiet.

sanitizer=$(${MPICC:-mpicc} -print-file-name=libasan.so)
flags='-O1 -g -fsanitize=address,undefined -fno-sanitize-recover=undefined'
export ASAN_OPTIONS=detect_leaks=0
if make -s -j4 -C "$tools" BUILD="$room/sanitized" CFLAGS="$flags" tests > sanitized.out 2>&1; then
    for name in halo varn buffered forms posts types; do
        # shellcheck disable=SC2086
        NCTRACE=sanitized LD_PRELOAD=$sanitizer:$room/sanitized/libnctrace.so timeout -k 2 90 $mpiexec -n 4 "sanitized/$name" sanitized.nc > sanitized.said 2>&1
        same "sanitizers: the trace of $name" '' "$(grep -v '^ncmpi_.*: NC_[A-Z]*$' sanitized.said)"
    done
    for name in one_put many_regions cdf5_types posted_requests; do
        # shellcheck disable=SC2086
        timeout -k 2 90 $mpiexec -n "$(ranks_of "$examples/$name.script")" sanitized/ncreplay "$examples/$name.script" sanitized.nc > sanitized.said 2> sanitized.err
        same "sanitizers: the replay of $name" '' "$(cat sanitized.err)"
    done
else
    echo "bridge: without sanitizers: $(tail -1 sanitized.out)"
fi
unset ASAN_OPTIONS
