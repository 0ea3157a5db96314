"""plot.py RESULTS PROCESSOR SVG: the results as tables on standard output and as a picture.

A result is a line: what, data, who, figure, unit or class of instruction."""
import sys

WHO = {"library": ("the library", "#1b6ca8"), "plain": ("plain C", "#707070"), "plain-jump": ("with a root that jumps", "#a0a0a0"), "plain-sqrt": ("with the processor's root", "#c8c8c8"), "double": ("doubles", "#e0a030"),
       "snprintf": ("snprintf of whole numbers", "#3d8c57"), "snprintf-double": ("snprintf of doubles", "#a3cfae")}

# What is drawn and tabled together: whose figure is 1, who has a column, beside whom the library's ratio is given.
TOGETHER = {"plain": (["library", "plain", "plain-jump", "plain-sqrt", "double"], ["plain", "double"]),
            "snprintf": (["library", "snprintf", "snprintf-double"], ["snprintf", "snprintf-double"])}


def read(path):
    """measure -> (what, data) -> who -> figure, in the file's order"""
    found = {}
    for line in open(path):
        what, data, who, figure, unit = line.rstrip("\n").split("\t")
        found.setdefault(unit, {}).setdefault((what, data), {})[who] = float(figure)
    return found


def shown(figure):
    return "" if figure is None else f"{figure:,.0f}" if figure >= 100 else f"{figure:.2f}"


def parted(rows):
    """The rows by whose figure is 1."""
    for one in TOGETHER:
        part = {key: by for key, by in rows.items() if one in by}
        if part:
            yield one, part


def table(title, rows):
    for one, part in parted(rows):
        columns, beside = TOGETHER[one]
        print(f"\n{title}\n")
        print("| | data | " + " | ".join([WHO[who][0] for who in columns] + [f"library ÷ {WHO[who][0]}" for who in beside]) + " |")
        print("|---|---|" + "---:|" * (len(columns) + len(beside)))
        for (what, data), by in part.items():
            ratios = [f"{by['library'] / by[who]:.2f}" if by.get(who) else "" for who in beside]
            print(f"| {what} | {data} | " + " | ".join([shown(by.get(who)) for who in columns] + ratios) + " |")


def panel(title, one, rows, top):
    """A bar for each figure, as long as its ratio to the one's that is 1."""
    left, width, bar, wide = 150, 560, 11, 22
    most = max(figure / by[one] for by in rows.values() for figure in by.values())
    unit = width / most
    parts = [f'<text x="12" y="{top + 16}" class="title">{title}</text>']
    y = top + 28
    start = y
    for (what, data), by in rows.items():
        parts.append(f'<text x="{left - 8}" y="{y + bar * len(by) / 2 + 4}" text-anchor="end">{what}, {data}</text>')
        for who, figure in by.items():
            ratio = figure / by[one]
            end = ratio * unit
            # a label that the line at 1 would cross or touch stands past the line
            label = unit if end < unit < end + 4 + wide + 4 else end
            parts.append(f'<rect x="{left}" y="{y}" width="{end:.1f}" height="{bar - 1}" fill="{WHO[who][1]}"/>')
            parts.append(f'<text x="{left + label + 4:.1f}" y="{y + bar - 2}" class="small">{ratio:.2f}</text>')
            y += bar
        y += 8
    parts.append(f'<line x1="{left + unit:.1f}" y1="{start - 4}" x2="{left + unit:.1f}" y2="{y - 4}" stroke="#404040" stroke-dasharray="2 3"/>')
    return parts, y + 6


def picture(panels, path):
    parts, y = [], 8
    x = 12
    for name, colour in WHO.values():
        if x + 16 + 7 * len(name) > 760:
            x, y = 12, y + 18
        parts.append(f'<rect x="{x}" y="{y}" width="11" height="11" fill="{colour}"/><text x="{x + 16}" y="{y + 10}">{name}</text>')
        x += 34 + 7 * len(name)
    y += 22
    for title, sense, rows in panels:
        for one, part in parted(rows):
            drawn, y = panel(f"{title}; {WHO[one][0]} is 1, {sense}", one, part, y)
            parts += drawn
    with open(path, "w") as out:
        out.write(f'<svg xmlns="http://www.w3.org/2000/svg" width="760" height="{y}" viewBox="0 0 760 {y}">\n'
                  "<style>text{font:12px sans-serif;fill:#202020}.small{font-size:9px}.title{font-weight:bold}</style>\n"
                  '<rect width="100%" height="100%" fill="#ffffff"/>\n' + "\n".join(parts) + "\n</svg>\n")


def main(results, processor, svg):
    found = read(results)
    panels = []
    speeds = [unit for unit in found if unit.endswith("a second")]
    for unit in speeds:
        table(f"{unit[0].upper() + unit[1:]}, on {processor}:", found[unit])
    if speeds:
        panels.append((f"Speed on {processor}", "more is faster", {key: by for unit in speeds for key, by in found[unit].items()}))
    for name in [u for u in found if not u.endswith("a second")]:
        rows = {key: by for key, by in found[name].items() if name == "instructions" or key == ("reading", "uniform")}
        table(f"{name[0].upper() + name[1:]} to one answer:", rows)
    panels.append(("x86-64 instructions executed for one answer", "less is fewer", found["instructions"]))
    picture(panels, svg)


main(*sys.argv[1:])
