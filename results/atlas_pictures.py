"""The pictures of the atlas, as SVG by gnuplot, each with its data beside it as CSV."""

import os
import subprocess

from gameshrink.texts import decimal, write_csv

HEAD = """set terminal svg size %d,%d font "sans,13" background "white"
set datafile separator ","
set grid
set style data linespoints
set pointsize 0.5
"""


def with_data(panels):
    """Returns the panels and lines for which there are numbers."""
    kept = [(title, [(line, found) for line, found in columns if found]) for title, columns in panels]
    return [(title, columns) for title, columns in kept if columns]


def draw(folder, name, size, script):
    """Writes NAME.svg; the script reads the data beside it."""
    if "plot \"" not in script:
        return
    done = subprocess.run(["gnuplot"], input=HEAD % size + script, cwd=folder, capture_output=True, text=True, check=True)
    with open(os.path.join(folder, name + ".svg"), "w", encoding="ascii") as file:
        file.write(done.stdout)


def shown(x):
    return str(x) if isinstance(x, int) else decimal(x, 12)


def table_of(folder, name, first, columns):
    """Writes NAME.csv: a column of numbers, and columns of which each is a title and a number or nothing for each of them."""
    keys = sorted({key for _, found in columns for key in found})
    rows = [[key, *(shown(found[key]) if key in found else "" for _, found in columns)] for key in keys]
    write_csv(os.path.join(folder, name + ".csv"), [first, *(title for title, _ in columns)], rows)


def lines(name, first, columns):
    """Returns the plot command of the columns of NAME.csv from number `first` on."""
    parts = ('"%s.csv" using 1:%d title "%s"' % (name, first + at, title) for at, (title, _) in enumerate(columns))
    return "plot " + ", ".join(parts) + "\n"


def values(folder, panels):
    """Draws the value by ranks; `panels` are titles, each with a line for each cap."""
    panels = with_data(panels)
    table_of(folder, "value_by_ranks", "ranks", [("%s %s" % (title, cap), found) for title, columns in panels for cap, found in columns])
    script, first = 'set multiplot layout 2,2\nset xlabel "ranks"\nset ylabel "value to player 1, chips"\nset key top right\nset xtics 1\n', 2
    for title, columns in panels:
        script += 'set title "%s"\n' % title + lines("value_by_ranks", first, columns)
        first += len(columns)
    draw(folder, "value_by_ranks", (1000, 760), script)


def prices(folder, panels):
    """Draws what the isomorphism classes cost, by ranks; `panels` are titles, each with a line for each seat."""
    panels = with_data(panels)
    table_of(folder, "isomorphism_price", "ranks", [("%s %s" % (title, seat), found) for title, columns in panels for seat, found in columns])
    script, first = 'set multiplot layout 1,3\nset xlabel "ranks"\nset ylabel "price, chips"\nset yrange [0:]\nset xtics 1\nset key top right\n', 2
    for title, columns in panels:
        script += 'set title "%s"\n' % title + lines("isomorphism_price", first, columns)
        first += len(columns)
    draw(folder, "isomorphism_price", (1200, 420), script)


def classes(folder, columns):
    """Draws the classes of the last round against its signals."""
    columns = [column for column in columns if column[1]]
    table_of(folder, "class_counts", "signals", columns)
    script = 'set logscale xy\nset xlabel "signals of the last round"\nset ylabel "classes of the last round"\nset key bottom right\n'
    draw(folder, "class_counts", (800, 520), script + lines("class_counts", 2, columns))


def turns(folder, games):
    """Draws both gaps together by turns of play; `games` are titles with value and gaps by turns."""
    rows = [[title, n, *numbers, decimal(sum(numbers[1:]), 12)] for title, found in games for n, numbers in found.items()]
    write_csv(os.path.join(folder, "gaps_by_turns.csv"), ["game", "turns", "value", "gap1", "gap2", "both_gaps"], rows)
    script = 'set logscale xy\nset format x "%.0f"\nset format y "%g"\nset xlabel "turns of play"\nset ylabel "gap 1 + gap 2, chips"\nset key bottom left\n'
    parts = ("\"< grep '^%s,' gaps_by_turns.csv\" using 2:6 title \"%s\"" % (title, title) for title, _ in games)
    draw(folder, "gaps_by_turns", (800, 520), script + "plot " + ", ".join(parts) + "\n")
