"""Plays a step file and says how fast: measure.py PROGRAM STEPS TRANSCRIPT"""
import os
import resource
import subprocess
import sys
import time


def main(program, steps, transcript):
    begun = time.monotonic()
    with open(transcript, "wb") as sink:
        status = subprocess.run([program, "run", steps], stdout=sink).returncode
    seconds = time.monotonic() - begun
    with open(steps, "rb") as source:
        lines = sum(1 for _ in source)
    size = os.path.getsize(transcript)
    peak = resource.getrusage(resource.RUSAGE_CHILDREN).ru_maxrss
    print(f"status {status}")
    print(f"lines {lines} in {seconds:.2f} s: {lines / seconds:.0f} lines/s")
    print(f"output {size} bytes: {size / seconds / 1e6:.1f} MB/s")
    print(f"peak memory {peak / 1024:.1f} MiB")


main(*sys.argv[1:])
