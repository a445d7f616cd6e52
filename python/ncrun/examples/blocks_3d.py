"""A cube in 2 x 2 x 2 blocks: each of eight ranks writes its own, and reads it with what lies around it."""
from ncrun import Script

def corner(rank): return [rank // 4 * 2, rank // 2 % 2 * 2, rank % 2 * 2]

s = Script(version=2, ranks=8)
s.def_dims(z=4, y=4, x=4)
s.def_var("cell", "int", "z y x")
s.every().put_vara_all("cell", corner, [2, 2, 2], lambda rank: [100 * rank + n for n in range(8)])
halos = s.every().get_vara_all("cell", lambda rank: [max(k - 1, 0) for k in corner(rank)], [3, 3, 3])
run = s.run("blocks_3d.nc", check=True)
print(run[halos])
