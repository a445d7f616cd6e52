# shellcheck shell=bash disable=SC2154
# What ncreport says of traces without values, by the plans of ncplan, which lies beside ncrun's crate or where NCPLAN says.

export NCPLAN=${NCPLAN:-$(dirname "$program")/../../ncplan/out/ncplan}
if [ -x "$NCPLAN" ]; then
    NCTRACE_VALUES=off NCTRACE=step launch 4 40 "$build/output_step" step.nc > step.said 2>&1
    "$tools/ncreport" --hints cb_nodes=1 --html step.html step.[0-3] > step.report
    same 'ncreport: it ends well' 0 $?
    same 'ncreport: the sums' '  4 steps ask for 64 KiB; the disk sees 0 reads of 0 bytes and 19 writes of 64.16 KiB.' "$(sed -n 2p step.report)"
    same 'ncreport: a step' 'm0 put_vara_float_all heat 4 32 4096 4 4096 4 0 0 5 16388' "$(awk '$1 == "m0" && $2 ~ "_all$" { $NF = ""; print; exit }' step.report | sed 's/ $//')"
    same 'ncreport: hints side by side' 'as it ran 3 0 0 19 65700 0
cb_nodes=1 3 0 0 7 65700 0' "$(grep -E '^  (as it ran|cb_nodes=1) ' step.report | sed 's/^ *//; s/  */ /g')"
    same 'ncreport: advice' 2 "$(sed -n '/^Advice/,/^$/p' step.report | grep -c '^  ')"
    same 'ncreport: the slowest calls' 4 "$(sed -n '/^The slowest calls/,$p' step.report | grep -c '^  m[0-3] ')"
    same 'ncreport: the page' yes "$(yes_if grep -q '<svg' step.html)"
    # shellcheck disable=SC2086
    same 'nccheck: a page' 'status 0' "$(checked --report checked.html $mpiexec -n 4 "$build/halo" checked.nc | tail -1)"
    same 'nccheck: the page' yes "$(yes_if grep -q '<table>' checked.html)"
else
    echo "bridge: ncreport isn't tried: there is no $NCPLAN"
fi
