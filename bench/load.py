"""Runs two programs in turns, each with `load SEED`, and prints their seconds by the clock and of the processors.

usage: load.py TURNS SEED GATE OTHER"""
import resource
import statistics
import subprocess
import sys
import time


def run(program):
    before, begin = resource.getrusage(resource.RUSAGE_CHILDREN), time.perf_counter()
    subprocess.run([program, "load", sys.argv[2]], stdout=subprocess.DEVNULL, check=True)
    end, after = time.perf_counter(), resource.getrusage(resource.RUSAGE_CHILDREN)
    return end - begin, after.ru_utime + after.ru_stime - before.ru_utime - before.ru_stime


programs = sys.argv[3:]
turns = [[run(program) for program in programs] for _ in range(int(sys.argv[1]))]
for at, what in enumerate(("clock", "processors")):
    for number, program in enumerate(programs):
        seconds = [turn[number][at] for turn in turns]
        print(f"{what}: {program}: best {min(seconds):.3f} s, in the middle {statistics.median(seconds):.3f} s")
