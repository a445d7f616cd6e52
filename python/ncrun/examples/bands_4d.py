"""A field of time, level, latitude and longitude: each of four ranks has a band of latitudes."""
from ncrun import Script

s = Script(version=1, ranks=4)
s.def_dims(time=None, lev=3, lat=8, lon=5)
s.def_var("q", "double", "time lev lat lon", units="kg kg-1")
for time in range(2):
    s.every().put_vara_all("q", lambda rank: [time, 0, 2 * rank, 0], [1, 3, 2, 5],
                           lambda rank: [[[[time + lev / 10 + lat / 1000] * 5 for lat in (2 * rank, 2 * rank + 1)] for lev in range(3)]])
run = s.run("bands_4d.nc", check=True)
print(run)
