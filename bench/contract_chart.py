#!/usr/bin/env python3
"""contract_chart.py CORNERS: a picture (SVG) of the rows of `table contract`, on standard input, that are of CORNERS by
CORNERS corners: for each share of kept nodes the time, the size of the file and the entries of a core node."""
import sys
corners = f'{sys.argv[1]} by {sys.argv[1]}'
rows = [cells for line in sys.stdin if (cells := [cell.strip() for cell in line.strip('|\n ').split('|')])[0] == corners]
panels = [
    ('Contracting, in seconds', [float(cells[2].split()[0]) for cells in rows], '{:.2f}'),
    ('The file, in megabytes', [float(cells[5].split()[0]) for cells in rows], '{:.1f}'),
    ('Entries of a core node', [float(cells[6].split()[1]) for cells in rows], '{:.1f}'),
]
wide, tall, bar, step = 250, 150, 34, 52
out = [f'<svg xmlns="http://www.w3.org/2000/svg" viewBox="0 0 {len(panels) * wide + 10} {tall + 90}" font-family="sans-serif" font-size="12">',
       f'<title>Contracting a city of {corners} corners, by the share of road nodes that is kept</title>',
       '<rect width="100%" height="100%" fill="#ffffff"/>']
for at, (title, values, form) in enumerate(panels):
    left, base = at * wide + 20, tall + 50
    out.append(f'<text x="{left}" y="22" font-size="13" font-weight="bold" fill="#222222">{title}</text>')
    out.append(f'<line x1="{left}" y1="{base}" x2="{left + len(rows) * step}" y2="{base}" stroke="#999999"/>')
    for k, (value, cells) in enumerate(zip(values, rows)):
        x, high = left + k * step + (step - bar) / 2, value / (max(values) or 1) * tall
        out.append(f'<rect x="{x:.0f}" y="{base - high:.1f}" width="{bar}" height="{high:.1f}" fill="#2f6f8f"/>')
        for y, text, colour in ((base - high - 5, form.format(value), '#222222'), (base + 17, cells[1], '#555555')):
            out.append(f'<text x="{x + bar / 2:.0f}" y="{y:.1f}" text-anchor="middle" fill="{colour}">{text}</text>')
    out.append(f'<text x="{left}" y="{base + 35}" fill="#555555">kept, of 100 road nodes</text>')
print('\n'.join(out + ['</svg>']))
