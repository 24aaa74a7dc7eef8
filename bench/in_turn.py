#!/usr/bin/env python3
"""in_turn.py PROGRAM REGION QUERIES SECONDS [--hierarchy FILE]: asks one process `PROGRAM requests REGION` the lines of QUERIES by
`answer`, over and over for so many seconds, each when the reply before it is whole. Tells how many requests a second were answered, and
the median and the 99th percentile of the milliseconds from the last byte of a line to the last of its block."""
import itertools
import subprocess
import sys
import time


def lines_of(path):
    with open(path, "rb") as file:
        return [b"answer " + line.rstrip(b"\r\n") + b"\n" for line in file if line.strip() and not line.startswith(b"#")]


def reply_of(process):
    """Reads one reply, which ends with a line `end`."""
    for line in process.stdout:
        if line == b"end\n":
            return
    sys.exit("in_turn.py: the program ended")


def ask(process, line):
    """Asks a line, and answers how many seconds its reply took."""
    process.stdin.write(line)
    process.stdin.flush()
    start = time.perf_counter()
    reply_of(process)
    return time.perf_counter() - start


def main():
    program, region, queries, seconds, *hierarchy = sys.argv[1:]
    words = [program, "requests", region, "/dev/stdin", *hierarchy]
    with subprocess.Popen(words, stdin=subprocess.PIPE, stdout=subprocess.PIPE, stderr=subprocess.DEVNULL) as process:
        ask(process, b"ready\n")
        took, start = [], time.perf_counter()
        for line in itertools.cycle(lines_of(queries)):
            took.append(ask(process, line))
            if time.perf_counter() - start > float(seconds):
                break
        whole = time.perf_counter() - start
        process.stdin.close()
    took.sort()
    print(f"{len(took) / whole:.0f} {1000 * took[len(took) // 2]:.2f} {1000 * took[len(took) * 99 // 100]:.2f}")


if __name__ == "__main__":
    main()
