"""A buffer that is full: the put that finds no room is refused, and goes once a wait has emptied the buffer."""
from ncrun import Script

s = Script(version=1, ranks=2)
s.def_dims(x=24)
s.def_var("v", "int", "x")
s.every().buffer_attach(32)
parts = [s.every().bput_vara("v", lambda rank: 12 * rank + 4 * k, values=lambda rank: [100 * rank + k] * 4) for k in range(3)]
s.every().wait_all()
s.every().bput_vara("v", lambda rank: 12 * rank + 8, values=lambda rank: [100 * rank + 2] * 4)
s.every().wait_all()
s.every().buffer_detach()
run = s.run("buffered.nc")
