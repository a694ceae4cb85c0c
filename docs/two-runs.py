# Draws the two runs and what erasing does from a text (see two-runs.txt for its form).
import sys
from xml.sax.saxutils import escape

lanes, join, last, sides, same = [], "", "", {"left": [], "right": []}, ""
for line in open(sys.argv[1], encoding="utf-8"):
    line = line.rstrip("\n")
    if not line or line.startswith("#"):
        continue
    word, rest = line.split(" ", 1)
    if word == "lane":
        name, cells = rest.split(":", 1)
        lanes.append((name.strip(), [c.strip() for c in cells.split(" | ")]))
    elif word == "join":
        join = rest
    elif word == "last":
        last = rest
    elif word == "same":
        same = rest
    else:
        sides[word].append([c.strip() for c in rest.split(" | ")])

out = []


def text(x, y, s, size=13, anchor="middle", fill="#222", style=""):
    out.append(f'<text x="{x}" y="{y}" font-size="{size}" text-anchor="{anchor}" fill="{fill}" {style}>{escape(s)}</text>')


def arrow(x1, y1, x2, y2, dash=""):
    out.append(f'<line x1="{x1}" y1="{y1}" x2="{x2}" y2="{y2}" stroke="#444" marker-end="url(#tip)" {dash}/>')


step, top, gap, left = 82, 60, 120, 110
for row, (name, cells) in enumerate(lanes):
    y = top + row * gap
    text(14, y + 5, name, 15, "start", "#000", 'font-weight="bold"')
    seen = None
    for i, c in enumerate(cells):
        x = left + i * step
        if i % 2 == 0:
            out.append(f'<circle cx="{x}" cy="{y}" r="17" fill="{"#ffe9c9" if row == 0 and 0 < i < len(cells) - 1 else "#e4eefb"}" stroke="#444"/>')
            text(x, y + 5, c)
            if seen is not None:
                asked = cells[i - 1].strip("[]")
                arrow(seen + 18, y, x - 20, y, "" if asked else 'stroke-dasharray="2 4"')
                text((seen + x) / 2, y - 10 if row == 0 else y + 20, asked, 12)
            seen = x
for i in range(2, len(lanes[0][1]), 2):
    x = left + i * step
    end = i == len(lanes[0][1]) - 1
    arrow(x, top + 19, x, top + gap - 20, 'stroke-dasharray="5 3"')
    text(x + 6, top + gap / 2 + 4, last if end else join, 11, "start", "#a04000")

base, wide, high = top + gap + 75, 370, 24
for side, x in (("left", 40), ("right", 560)):
    rows = sides[side]
    text(x, base - 10, rows[0][0], 14, "start", "#000", 'font-weight="bold"')
    for n, cells in enumerate(rows[1:]):
        y = base + n * high
        other = sides["left"][n + 1] != sides["right"][n + 1]
        out.append(f'<rect x="{x}" y="{y}" width="{wide}" height="{high}" fill="{"#fff4e2" if other else "#ffffff"}" stroke="#888"/>')
        text(x + 8, y + 16, cells[0], 12, "start")
        text(x + 80, y + 16, cells[1], 12, "start")
mid = base + 4 * high
arrow(40 + wide + 15, mid, 560 - 15, mid, 'stroke-dasharray="5 3"')
text(485, mid - 8, join, 12, "middle", "#a04000")
end = base + 8 * high
text(40, end + 24, "The same in both: " + same + ".", 12, "start")

print(f'<svg xmlns="http://www.w3.org/2000/svg" width="1040" height="{end + 40}" viewBox="0 0 1040 {end + 40}" font-family="sans-serif">')
print('<defs><marker id="tip" markerWidth="8" markerHeight="8" refX="7" refY="3" orient="auto"><path d="M0,0 L7,3 L0,6 z" fill="#444"/></marker></defs>')
print('<rect width="100%" height="100%" fill="#ffffff"/>')
print("\n".join(out))
print("</svg>")
