"""The shortest of many runs of a program on the same input: what the benchmarks measure by."""
import subprocess
import time


def shortest(program, data, runs):
    best = None
    for _ in range(runs):
        began = time.perf_counter()
        subprocess.run([program], input=data, stdout=subprocess.DEVNULL, check=True)
        took = time.perf_counter() - began
        best = took if best is None else min(best, took)
    return best
