#!/usr/bin/env python3
"""Runs a program whose standard error is a terminal.

  terminal.py SECONDS TEXT PROGRAM WORD.. < SCRIPT     prints what the terminal was given, with its control characters escaped

The script is handed on after so many seconds. Standard output goes to the file TEXT, or where TEXT is `-` to the same terminal. The status is the program's.
"""
import os, pty, subprocess, sys, threading, time

seconds, text, *command = sys.argv[1:]
script = sys.stdin.buffer.read()
leader, follower = pty.openpty()
given = bytearray()


def listen():
    try:
        while piece := os.read(leader, 65536):
            given.extend(piece)
    except OSError:                                                     # the program has ended, and nothing is left
        pass


out = follower if text == "-" else os.open(text, os.O_WRONLY | os.O_CREAT | os.O_TRUNC, 0o666)
run = subprocess.Popen(command, stdin=subprocess.PIPE, stdout=out, stderr=follower)
os.close(follower)
ears = threading.Thread(target=listen)
ears.start()
time.sleep(float(seconds))
run.stdin.write(script)
run.stdin.close()
run.wait()
ears.join()
print(repr(given.decode())[1:-1])
sys.exit(run.returncode)
