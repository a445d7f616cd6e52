"""A variable of 3 * 10^9 bytes in CDF-5 and one behind it: the file is sparse, and takes little room."""
from ncrun import Script

s = Script(version=5, ranks=4)
s.def_dims(x=3 * 10 ** 9, y=4)
s.def_var("big", "ubyte", "x")
s.def_var("behind", "int64", "y")
s.every().put_vara_all("big", lambda rank: 3 * 10 ** 9 - 8 + 2 * rank, values=lambda rank: [rank, 255 - rank])
s.every().put_vara_all("behind", lambda rank: rank, 1, lambda rank: 10 ** 15 + rank)
ends = s.every().get_vara_all("big", 3 * 10 ** 9 - 8, 8)
run = s.run("huge.nc", check=True)
