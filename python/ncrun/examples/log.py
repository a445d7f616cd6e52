"""A log of texts: each rank puts its lines when it likes, in independent mode, and all read the whole at the end."""
from ncrun import Script

s = Script(version=1, ranks=3)
s.def_dims(line=9, letter=16)
s.def_var("log", "char", "line letter")
s.every().begin_indep_data()
for step in range(3):
    s.every().put_vara("log", lambda rank: [3 * rank + step, 0], values=lambda rank: f"rank {rank} step {step}".ljust(16))
s.every().end_indep_data()
log = s.every().get_var_all("log")
run = s.run("log.nc", check=True)
for line in run[log[0]].nested():
    print(line.decode())
