# shellcheck shell=bash disable=SC2154
# Traces and datasets that aren't what they should be.

cp halo.0 cut.0; cp halo.2 cut.2; cp halo.3 cut.3; head -n -3 halo.1 | head -c -10 > cut.1
for rank in 0 1 2 3; do cp "halo.$rank.values" "cut.$rank.values"; done
same 'a trace that breaks off amid a line' 'halo.nc, created by 4 ranks:
  not told: rank 1: its trace breaks off amid a line after call 2, put_vara_all heat [2,4] [1,4]: the disk was full, or the rank was killed
status 1' "$(found cut | grep -v '^  remark')"
NCTRACE=halo launch 2 40 "$build/halo" halo_of_two.nc > halo.said 2>&1
same 'traces of an earlier run' 'halo.2 is of an earlier run, and left out
halo.3 is of an earlier run, and left out
halo_of_two.nc, created by 2 ranks: 6 calls as in the proved run, and the same values in the file
status 0' "$(found halo)"
printf 'create 1\nranks 1\ndata\nend\n' | "$program" empty.nc > empty.text
same 'a dataset without what was defined' 'two_datasets.nc.other, created by 4 ranks:
  the file: the dimension y stands in the proved file alone
  the file: the dimension z stands in the proved file alone
  the file: the variable heat stands in the proved file alone
status 1' "$(found two_datasets --file two_datasets.nc.other=empty.nc | grep -v 'as in the proved run')"
same 'a dataset that --file leaves open' 'ncdiagnose: --file empty.nc: the traces have two_datasets.nc, two_datasets.nc.other; say --file NAME=DATASET
status 2' "$(found two_datasets --file empty.nc)"
NCTRACE_VALUES=off NCTRACE=bare launch 4 40 "$build/halo" halo.nc > bare.said 2>&1
same 'a trace without values' 'halo.nc, created by 4 ranks: 12 calls as in the proved run; values were not traced
status 0' "$(found bare)"
same 'tests of the Python' 'some
OK' "$(PYTHONPATH=$tools PYTHONDONTWRITEBYTECODE=1 python3 -m unittest discover -s "$tools/tests" 2>&1 | sed -n 's/^Ran [1-9][0-9]* tests .*/some/p; $p')"
