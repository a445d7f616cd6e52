"""A checkpoint: 40 variables of four ranks, posted one after another and written by one wait."""
from ncrun import Script

s = Script(version=2, ranks=4)
s.def_dims(cell=24)
for n in range(40):
    s.def_var(f"state_{n}", "double", "cell")
    s.every().iput_vara(f"state_{n}", lambda rank: 6 * rank, values=lambda rank: [n + (6 * rank + k) / 64 for k in range(6)])
s.every().wait_all()
run = s.run("checkpoint.nc", check=True)
