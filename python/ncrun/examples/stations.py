"""Stations that lie anywhere: each rank puts the records of its own by one call, and one rank has none."""
from ncrun import Script

OWN = [0, 7, 3], [4], [], [9, 1]
s = Script(version=1, ranks=4)
s.def_dims(station=10, hour=6)
s.def_var("obs", "float", "station hour", _FillValue=-999.0)
s.every().put_varn_all("obs", lambda rank: [[k, 0] for k in OWN[rank]], lambda rank: [[1, 6]] * len(OWN[rank]),
                       lambda rank: [[20 + k + hour / 4 for hour in range(6)] for k in OWN[rank]])
s.every([0]).get_var_all("obs")
s.idle()
run = s.run("stations.nc", check=True)
