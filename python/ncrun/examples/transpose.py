"""Memory by columns: fields of longitude and latitude are put to a variable of latitude and longitude, and read back so."""
from ncrun import Script

s = Script(version=1, ranks=2)
s.def_dims(lat=6, lon=8)
s.def_var("h", "short", "lat lon")
s.every().put_varm_all("h", lambda rank: [3 * rank, 0], [3, 8], imap=[1, 3], values=lambda rank: [10 * lon + 3 * rank + lat for lon in range(8) for lat in range(3)])
columns = s.every().get_varm_all("h", lambda rank: [0, 4 * rank], [6, 4], imap=[1, 6])
run = s.run("transpose.nc", check=True)
