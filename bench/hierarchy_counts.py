#!/usr/bin/env python3
"""hierarchy_counts.py REGION HIERARCHY: of a region text and a hierarchy file, in a line: how many entries, witnesses and
bytes the file has, how many road nodes are core, and how many entries between core nodes there are for each of them."""
import struct, sys
roads = sum(line.startswith('node ') for line in open(sys.argv[1]))
data = open(sys.argv[2], 'rb').read()
order, entries, witnesses = struct.unpack_from('>3Q', data, 8)
contracted = set(struct.unpack_from(f'>{order}I', data, 32))
ends = struct.iter_unpack('>2I12x', data[32 + 4 * order:32 + 4 * order + 20 * entries])
core = sum(a not in contracted and b not in contracted for a, b in ends)
print(entries, witnesses, len(data), roads - order, f'{core / max(1, roads - order):.1f}')
