#!/usr/bin/env python3
"""grid.py N: the region text of a foot grid of N by N corners, with an arc each way between neighbours."""
import sys
n = int(sys.argv[1])
print('modeplan region 1\ndays 20240304 1')
for k in range(n * n):
    print(f'node foot {1 + k} {480000000 + 10000 * (k // n)} {110000000 + 10000 * (k % n)}')
for k in range(n * n):
    r, c = k // n, k % n
    for there, to in ((r > 0, k - n), (c > 0, k - 1), (c + 1 < n, k + 1), (r + 1 < n, k + n)):
        if there:
            print(f'arc {k} {to} {50000 + (37 * k + 11 * to) % 10000}')
print('end')
