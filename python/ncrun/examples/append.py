"""One more record of what bands_4d.py made: its number is asked for first."""
from ncrun import Script

ask = Script.open("bands_4d.nc")
length = ask.rank(0).inq_dimlen("time")
time = ask.run()[length].value
s = Script.open("bands_4d.nc", ranks=4)
s.every().put_vara_all("q", lambda rank: [time, 0, 2 * rank, 0], [1, 3, 2, 5], lambda rank: [time + rank / 10 + n / 1000 for n in range(30)])
run = s.run(check=True)
print(run)
