# The benchmark at tiny sizes: it runs, what the program and PnetCDF make is byte by byte what the limit makes, and the page's tables are written.

# rows_of N: the rows and sizes of the N-th table of the page
rows_of() {
    sed -n '/^<!-- the table of bench.run -->/,/^<!-- its end -->/p' speed.md |
        awk -v table="$1" '/^\*\*/ { number++ } number == table && /^\| [a-z_]+ *\| *[0-9]+ \|/ { print $2, $4 }'
}

bench_runs() {
    if ! command -v "${CC:-cc}" > /dev/null; then
        echo 'skipped: the benchmark, since there is no C compiler'
        return
    fi
    sides=threads,in_turn
    if missing=$(make -s -C "$root/tools/pnetcdf" packages 2> /dev/null); then
        sides=$sides,ROMIO
    else
        echo "skipped: the benchmark beside PnetCDF: $missing"
    fi
    cp "$root/docs/SPEED.md" speed.md
    given=$("$root/bench/run" --program "$program" --runs 1 --ranks 2 --sides $sides --page speed.md 2>&1)
    same 'the benchmark: status' 0 $?
    same 'the benchmark: what differs' '' "$(printf '%s\n' "$given" | grep -v '^|\|^\*\*\|^Runs\|^Left out\|^The \|^It takes\|^$')"
    rows='generate 1
fields 2
blocks 1
cyclic_rows 64
cyclic_columns 4096
aggregators 2
varn 1
fill 1
small 16
variables 16
steps 16
posted 1
independent 16
calls 64
waits 64
numbers 1
attributes 64
header 64
reads 2
reads_by_mib 2
block_reads 1
column 64'
    same 'the benchmark: rows of the run' "$rows" "$(rows_of 1)"
    same 'the benchmark: rows of the whole program' "$rows" "$(rows_of 2)"
    if [ -f "$root/clib/out/libnc_classic.a" ]; then
        same 'the benchmark: rows of the library for C' 'header 64
extents 64' "$(rows_of 3)"
    else
        echo 'skipped: the benchmark of the library for C, which is not built'
    fi
    rm -f speed.md
}
bench_runs
