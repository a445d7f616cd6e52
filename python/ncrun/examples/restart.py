"""A restart of what checkpoint.py wrote, on three ranks."""
from ncrun import Script

s = Script.open("checkpoint.nc", ranks=3)
states = [s.every().iget_vara(name, lambda rank: 8 * rank, 8) for name in s.vars]
s.every().wait_all(states)
run = s.run(check=True)
