# shellcheck shell=bash disable=SC2154
# The size of a real run: 64 ranks with 10,000 collective calls each, merged and diagnosed, in a minute of the processor and 1 GiB.

"$tools/tests/long_trace" long 64 10000
same 'a long trace: merged' 'long.nc, created by 64 ranks: 640000 calls in long.script' "$("$tools/tests/bounded" 60 1024 "$tools/ncmerge" long long.[0-9] long.[0-9][0-9])"
same 'a long trace: diagnosed' "long.nc, created by 64 ranks: 640000 calls as in the proved run
  remark: the file isn't compared: it isn't there as the program left it" \
    "$("$tools/tests/bounded" 60 1024 "$tools/ncdiagnose" long.[0-9] long.[0-9][0-9])"
rm -f long.*
