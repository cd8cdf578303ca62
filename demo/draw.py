"""Draws the two oxygen curves of the night run: draw.py OUTPUT PICTURE.svg."""
import sys

WIDTH, HEIGHT, LEFT, GAP = 900, 260, 60, 50
LOW, HIGH, MINUTES = 3500, 7500, 1440


def panel(curves, first, last, top, title):
    """One panel of the picture: minutes first to last."""
    def across(minute):
        return LEFT + (minute - first) * (WIDTH - LEFT - 20) / (last - first)

    def down(value):
        return top + HEIGHT - (value - LOW) * HEIGHT / (HIGH - LOW)

    parts = [f'<text x="{LEFT}" y="{top - 10}" font-weight="bold">{title}</text>']
    for value in range(LOW, HIGH + 1, 1000):
        parts.append(f'<path d="M{LEFT} {down(value):.1f}H{WIDTH - 20}" stroke="#ddd"/>')
        parts.append(f'<text x="{LEFT - 8}" y="{down(value) + 4:.1f}" text-anchor="end">'
                     f'{value / 1000:.1f}</text>')
    for minute in range(first, last + 1, (last - first) // 8):
        parts.append(f'<text x="{across(minute):.1f}" y="{top + HEIGHT + 18}" text-anchor="middle">'
                     f'{minute // 60:02d}:{minute % 60:02d}</text>')
    for curve, colour in zip(curves, ("#0a6", "#c33")):
        minutes = range(first, min(last + 1, len(curve)))
        points = " ".join(f"{across(m):.1f},{down(curve[m]):.1f}" for m in minutes)
        parts.append(f'<polyline points="{points}" fill="none" stroke="{colour}"/>')
    return parts


def main():
    with open(sys.argv[1], encoding="utf-8") as lines:
        rows = [tuple(map(int, line.split()[1:])) for line in lines if line.startswith("curve ")]
    if len(rows) != MINUTES:
        sys.exit(f"{len(rows)} minutes and not a day")
    curves = [row[1] for row in rows], [row[2] for row in rows]
    whole = 2 * (HEIGHT + GAP) + 60
    picture = [f'<svg xmlns="http://www.w3.org/2000/svg" width="{WIDTH}" height="{whole}" '
               'font-family="sans-serif" font-size="12" stroke-width="1.6">',
               '<rect width="100%" height="100%" fill="white"/>']
    picture += panel(curves, 0, MINUTES, 40, "Oxygen in mg/l over a day")
    picture += panel(curves, 120, 200, HEIGHT + GAP + 50, "From two at night, when the pump rests")
    picture.append(f'<text x="{LEFT}" y="{whole - 12}" fill="#0a6">the right order</text>')
    picture.append(f'<text x="{LEFT + 120}" y="{whole - 12}" fill="#c33">'
                   'read all, set all, step all</text></svg>')
    with open(sys.argv[2], "w", encoding="utf-8") as out:
        out.write("\n".join(picture) + "\n")


main()
