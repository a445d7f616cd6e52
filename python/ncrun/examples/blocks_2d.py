"""An 8 x 8 field in 2 x 2 blocks: each rank writes its own, and reads it with a halo."""
from ncrun import Script

def corner(rank): return [rank // 2 * 4, rank % 2 * 4]

s = Script(version=1, ranks=4)
s.def_dims(y=8, x=8)
s.def_var("t", "float", "y x", units="K")
s.every().put_vara_all("t", corner, [4, 4], lambda rank: [250 + 10 * rank + n * n / 4 for n in range(16)])
halos = s.every().get_vara_all("t", lambda rank: [max(k - 1, 0) for k in corner(rank)], [5, 5])
run = s.run("blocks_2d.nc", check=True)
print(run[halos])
