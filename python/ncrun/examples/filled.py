"""Fill values: those of fixed variables from the start, those of a record by a call of all ranks."""
from ncrun import Script

s = Script(version=1, ranks=4, fill=True)
s.def_dims(time=None, x=8)
s.def_var("mask", "short", "x", _FillValue=-1)
s.def_var("t", "float", "time x")
s.every().fill_var_rec("t", 1)
s.every().put_vara_all("t", lambda rank: [1, 2 * rank], [1, 1], lambda rank: rank + 0.5)
masks = s.every().get_var_all("mask")
records = s.every().get_vara_all("t", [1, 0], [1, 8])
run = s.run("filled.nc", check=True)
