"""Runs a command on a file as standard input, and prints its milliseconds and its peak of memory in bytes a byte of the file."""
import os
import resource
import subprocess
import sys
import time


def main():
    path, command = sys.argv[1], sys.argv[2:]
    with open(path, "rb") as file:
        start = time.monotonic()
        done = subprocess.run(command, stdin=file, stdout=subprocess.PIPE, stderr=subprocess.STDOUT)
        took = time.monotonic() - start
    peak = resource.getrusage(resource.RUSAGE_CHILDREN).ru_maxrss * 1024
    size = os.path.getsize(path)
    print(f"{size} bytes: {took * 1000:.0f} ms, peak {peak / size:.1f} bytes a byte, status {done.returncode}: {done.stdout.decode().strip()}")


main()
