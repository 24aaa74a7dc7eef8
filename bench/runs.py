#!/usr/bin/env python3
"""runs.py KIND TRIPS DAYS: the region text of two stops and TRIPS buses between them, on the seven lead days and DAYS days.
KIND is `plain` (each bus is there after the one before), `overtake` (each is there before the one before), or `tie` (all leave and
arrive together)."""
import sys
kind, trips, days = sys.argv[1], int(sys.argv[2]), int(sys.argv[3])
print(f'modeplan region 1\ndays 20240304 {days}\nstop A 480000000 110000000\nstop B 480000000 110100000')
for k in range(trips):
    leaves = 28800 if kind == 'tie' else k
    arrives = {'plain': 90000 + k, 'overtake': 90000 + trips - k, 'tie': 29400}[kind]
    print(f'trip bus {(1 << days + 7) - 1:x} 2 T{k}\ncall 0 {leaves} {leaves} 1\ncall 1 {arrives} {arrives} 2')
print('end')
