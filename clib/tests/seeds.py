#!/usr/bin/env python3
"""Writes headers to begin a fuzzer with: seeds.py FOLDER COUNT"""
import os, random, sys

from files import random_file

folder, count = sys.argv[1], int(sys.argv[2])
rng = random.Random(1)
os.makedirs(folder, exist_ok=True)
for number in range(count):
    with open(os.path.join(folder, f"{number}.nc"), "wb") as seed:
        seed.write(random_file(rng).encoded())
