#!/usr/bin/env python3
"""Colours a map of neighbouring cells with three colours, so that no two neighbours have the same one, and writes it to standard output as an SVG."""
import math
import random
from solver import Formula, arguments, solve

SIZE, CELLS, COLOURS = 600, 60, ["#d95f02", "#1b9e77", "#7570b3"]


def graph():
    """Points, and edges between near ones; no edge where a point has four already, so that three colours do."""
    dice = random.Random(8)
    points = []
    while len(points) < CELLS:
        point = dice.uniform(20, SIZE - 20), dice.uniform(20, SIZE - 20)
        if all(math.dist(point, it) > 45 for it in points):
            points.append(point)
    pairs = sorted((math.dist(points[a], points[b]), a, b) for a in range(CELLS) for b in range(a))
    degrees, edges = [0] * CELLS, []
    for distance, a, b in pairs:
        if distance < 110 and degrees[a] < 4 and degrees[b] < 4:
            edges.append((a, b))
            degrees[a] += 1
            degrees[b] += 1
    return points, edges


def formula_of(edges):
    formula = Formula()
    for cell in range(CELLS):
        formula.exactly_one([formula.var(cell, colour) for colour in range(3)])
    for a, b in edges:
        for colour in range(3):
            formula.add(-formula.var(a, colour), -formula.var(b, colour))
    return formula


def main():
    arguments(__doc__).parse_args()
    points, edges = graph()
    true = solve(formula_of(edges))
    if true is None:
        raise SystemExit("three colours don't do")
    colours = dict(true)
    print(f'<svg xmlns="http://www.w3.org/2000/svg" viewBox="0 0 {SIZE} {SIZE}" width="{SIZE}" height="{SIZE}">')
    for a, b in edges:
        (x, y), (u, v) = points[a], points[b]
        print(f'<line x1="{x:.1f}" y1="{y:.1f}" x2="{u:.1f}" y2="{v:.1f}" stroke="#999" stroke-width="2"/>')
    for cell, (x, y) in enumerate(points):
        print(f'<circle cx="{x:.1f}" cy="{y:.1f}" r="14" fill="{COLOURS[colours[cell]]}" stroke="#333"/>')
    print("</svg>")


if __name__ == "__main__":
    main()
