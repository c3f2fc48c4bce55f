"""Runs a program that prints how many bytes it went over, and says how many a second: rate.py PROGRAM WORD.."""
import subprocess
import sys
import time

begun = time.monotonic()
size = int(subprocess.run(sys.argv[1:], stdout=subprocess.PIPE, check=True).stdout)
seconds = time.monotonic() - begun
print(f"{sys.argv[2]}: {size} bytes in {seconds:.2f} s: {size / seconds / 1e6:.1f} MB/s")
