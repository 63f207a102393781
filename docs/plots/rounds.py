#!/usr/bin/env python3
"""Draws rounds.svg from rounds.csv: records and messages of `run` and `adapt`, by the share of offers that conflict."""
import csv
import os

HERE = os.path.dirname(os.path.abspath(__file__))
WORDS = (("run", "#4477aa"), ("adapt", "#ee6677"))
PANEL_WIDTH, PANEL_HEIGHT, LEFT, TOP, GAP = 300, 220, 60, 40, 70


def rows():
    with open(os.path.join(HERE, "rounds.csv"), newline="") as table:
        return list(csv.DictReader(table))


def ticks(most):
    step = next(s for s in (50, 100, 200, 250, 500) if most / s <= 6)
    return range(0, int(most // step + 1) * step + 1, step)


def panel(table, column, title, left):
    percents = sorted({int(row["percent"]) for row in table})
    marks = ticks(max(int(row[column]) for row in table))
    height = lambda value: PANEL_HEIGHT * value / marks[-1]
    bottom = TOP + PANEL_HEIGHT
    out = [f'<text x="{left + PANEL_WIDTH / 2}" y="{TOP - 14}" text-anchor="middle" font-weight="bold">{title}</text>']
    for mark in marks:
        y = bottom - height(mark)
        out.append(f'<line x1="{left}" y1="{y}" x2="{left + PANEL_WIDTH}" y2="{y}" stroke="#dddddd"/>')
        out.append(f'<text x="{left - 6}" y="{y + 4}" text-anchor="end">{mark}</text>')
    group = PANEL_WIDTH / len(percents)
    for place, percent in enumerate(percents):
        middle = left + group * (place + 0.5)
        for side, (word, color) in enumerate(WORDS):
            value = next(int(r[column]) for r in table if int(r["percent"]) == percent and r["word"] == word)
            x = middle + (side - 1) * 24
            out.append(f'<rect x="{x}" y="{bottom - height(value)}" width="22" height="{height(value)}" fill="{color}"/>')
            out.append(f'<text x="{x + 11}" y="{bottom - height(value) - 4}" text-anchor="middle" font-size="10">{value}</text>')
        out.append(f'<text x="{middle}" y="{bottom + 16}" text-anchor="middle">{percent} %</text>')
    out.append(f'<line x1="{left}" y1="{bottom}" x2="{left + PANEL_WIDTH}" y2="{bottom}" stroke="#333333"/>')
    out.append(f'<text x="{left + PANEL_WIDTH / 2}" y="{bottom + 36}" text-anchor="middle">offers that conflict</text>')
    return out


def main():
    table = rows()
    width = LEFT + 2 * PANEL_WIDTH + GAP + 20
    height = TOP + PANEL_HEIGHT + 80
    out = [
        f'<svg xmlns="http://www.w3.org/2000/svg" width="{width}" height="{height}" viewBox="0 0 {width} {height}" font-family="sans-serif" font-size="12">',
        f'<rect width="{width}" height="{height}" fill="white"/>',
    ]
    out += panel(table, "messages", "messages", LEFT)
    out += panel(table, "records", "records", LEFT + PANEL_WIDTH + GAP)
    for place, (word, color) in enumerate(WORDS):
        x = LEFT + place * 80
        out.append(f'<rect x="{x}" y="{height - 28}" width="12" height="12" fill="{color}"/>')
        out.append(f'<text x="{x + 18}" y="{height - 18}">{word}</text>')
    out.append("</svg>")
    with open(os.path.join(HERE, "rounds.svg"), "w") as plot:
        plot.write("\n".join(out) + "\n")


main()
