"""Hints for a file system with stripes: where the variables begin, and where the file is cut for the aggregators."""
from ncrun import Script

s = Script(version=1, ranks=4, hint=dict(nc_header_align_size=1024, nc_var_align_size=512, striping_unit=512, cb_nodes=2, cb_buffer_size=4096))
s.def_dims(x=256)
s.def_var("a", "int", "x")
s.def_var("b", "int", "x")
for name in s.vars:
    s.every().put_vara_all(name, lambda rank: 64 * rank, values=lambda rank: [n * n for n in range(64 * rank, 64 * rank + 64)])
run = s.run("hints.nc", check=True)
