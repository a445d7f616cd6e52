"""A C grid of 4 x 6 cells: u stands on their east and west sides, v on their north and south sides. The last rank has one more of u."""
from ncrun import Script

s = Script(version=1, ranks=3)
s.def_dims(y=4, x=6, y_v=5, x_u=7)
for name, dims in ("h", "y x"), ("u", "y x_u"), ("v", "y_v x"):
    s.def_var(name, "float", dims)
for name, rows, wide in ("h", 4, 0), ("u", 4, 1), ("v", 5, 0):
    s.every().put_vara_all(name, lambda rank: [0, 2 * rank], values=lambda rank: [
        [y + x / 8 for x in range(2 * rank, 2 * rank + 2 + wide * (rank == 2))] for y in range(rows)])
run = s.run("cgrid.nc", check=True)
