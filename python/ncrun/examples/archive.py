"""A variable with its bounds is added to what bands_4d.py made."""
from ncrun import Script

s = Script.open("bands_4d.nc", ranks=4)
s.def_dim("nv", 2)
s.def_var("lat", "double", "lat", units="degrees_north", bounds="lat_bnds")
s.def_var("lat_bnds", "double", "lat nv")
s.put_att("title", "bands with bounds")
s.every().put_vara_all("lat", lambda rank: 2 * rank, values=lambda rank: [40 * rank - 70, 40 * rank - 50])
s.every().put_vara_all("lat_bnds", lambda rank: [2 * rank, 0], values=lambda rank: [[40 * rank + edge - 80, 40 * rank + edge - 60] for edge in (0, 20)])
run = s.run(check=True)
