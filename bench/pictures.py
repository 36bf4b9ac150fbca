"""The pictures of docs/bench, by gnuplot; reads.csv and growth.csv have what is drawn in the pictures of that name."""
import csv
import re
import subprocess

from numbers_of_runs import BATCH, READS, by_contestant, number, unit, where

COLOURS = {
    "pma": "#b5302a",
    "pma-1024": "#e08a5f",
    "pma-paired": "#f0c040",
    "sqlite-delete": "#1f4e79",
    "sqlite-wal": "#3f7fbf",
    "sqlite-wal-cache": "#9cc3e6",
    "lmdb": "#3a7d44",
    "leveldb": "#6b4c9a",
    "leveldb-cache": "#b09ad0",
    "nothing": "#9a9a9a",
}
GRID = "set grid lc rgb '#dddddd'\n"


def draw(picture, size, commands):
    """The same commands give the same bytes: the version that gnuplot writes into the picture is taken out."""
    head = f"set terminal svg size {size} font 'sans-serif,11' background '#ffffff'\nset output '{picture}'\n"
    subprocess.run(["gnuplot"], input=head + commands, text=True, check=True)
    text = picture.read_text()
    picture.write_text(re.sub(r"<desc>.*?</desc>", "<desc>drawn by gnuplot</desc>", text, flags=re.S))


def panels(picture, size, all_of):
    draw(picture, size, f"set multiplot layout 1,{len(all_of)}\n" + "".join(all_of) + "unset multiplot\n")


def write_rows(file, head, rows):
    with file.open("w", newline="") as out:
        writer = csv.writer(out, lineterminator="\n")
        writer.writerow(head)
        writer.writerows(rows)


def data(name, rows):
    return f"${name} << EOD\n" + "\n".join(" ".join(str(cell) for cell in row) for row in rows) + "\nEOD\n"


def bars(title, label, values, notes=()):
    """One panel: a bar a contestant, with its note above it."""
    tics = ", ".join(f"'{name}' {n}" for n, name in enumerate(values))
    places = zip(notes, enumerate(values.values()))
    labels = [f"set label '{note}' at {n},{value} center offset 0,0.6 font ',9'\n" for note, (n, value) in places]
    return (
        f"unset label\nset title '{title}'\nset ylabel '{label}'\nset style fill solid\nset boxwidth 0.8\nset yrange [0:*]\n"
        f"set offsets 0, 0, graph 0.1, 0\nset xrange [-0.6:{len(values) - 0.4}]\nset grid ytics lc rgb '#dddddd'\n"
        f"set xtics rotate by -55 left ({tics}) scale 0 font ',9'\n" + "".join(labels) +
        data("bars", [(n, value, int(COLOURS[name][1:], 16)) for n, (name, value) in enumerate(values.items())]) +
        "plot $bars using 1:2:3 with boxes lc rgb variable notitle\n"
    )


def lines(all_of):
    """The lines of one panel: (rows of x and y, colour, title) each."""
    style = "using 1:2 with linespoints lw 2 pt 7 ps 0.5"
    plots = [f"$line{n} {style} lc rgb '{colour}' title '{title}'" for n, (_, colour, title) in enumerate(all_of)]
    return "".join(data(f"line{n}", rows) for n, (rows, *_) in enumerate(all_of)) + "plot " + ", ".join(plots) + "\n"


def draw_reads(numbers):
    all_times = {work: numbers.time(numbers.greatest, work) for work in READS}
    times = {work: values for work, values in all_times.items() if values}
    rows = [[work, name, unit(work), number(value)] for work, values in times.items() for name, value in values.items()]
    write_rows(numbers.folder / "reads.csv", ["workload", "contestant", "unit", "median"], rows)
    all_of = [bars(work, f"{unit(work)}, processor time", values) for work, values in times.items()]
    panels(numbers.folder / "reads.svg", f"{300 * len(all_of)},420", all_of)


def draw_puts(numbers):
    all_of = []
    for work in ("overwrite", "fillrandom", BATCH):
        rows = where(numbers.puts, workload=work)
        syncs = by_contestant(rows, "syncs_a_put")
        rates = by_contestant(rows, "a_second")
        notes = [f"{syncs[name]:.3g}" if name in syncs else "" for name in rates]
        all_of.append(bars(work + ", with the syncs of a put", "durable puts a second, by the clock", rates, notes))
    panels(numbers.folder / "puts.svg", "1500,420", all_of)


def draw_growth(numbers):
    head = "set logscale xy\nset key outside below\nset xlabel 'records'\nset ylabel 'us, processor time'\n"
    all_of, rows = [head + "set format x '10^{%L}'\n" + GRID], []
    for work in ("readrandom", "overwrite", "seekrandom 100"):
        times = {records: numbers.time(records, work) for records in numbers.records}
        drawn = []
        for name in ("pma", "sqlite-wal", "lmdb", "leveldb", "nothing"):
            line = [(records, number(values[name])) for records, values in times.items() if name in values]
            rows += [[work, name, *point] for point in line]
            drawn += [(line, COLOURS[name], name)] if line else []
        all_of.append(f"set title '{work}'\n" + lines(drawn))
    write_rows(numbers.folder / "growth.csv", ["workload", "contestant", "records", "median_us"], rows)
    draw(numbers.folder / "growth.svg", "1200,420", "set multiplot layout 1,3\n" + "".join(all_of) + "unset multiplot\n")


def draw_charges(numbers):
    head = "set logscale xy\nset key center left\nset xlabel 'updates'\nset ylabel 'charge of an update'\nset yrange [1:*]\n"
    head += "set format x '10^{%L}'\n"
    colours = {"random": "#1f4e79", "ascending": "#b5302a", "descending": "#e08a5f", "one place": "#6b4c9a"}
    drawn = [(points(where(numbers.charges, order=order), "charge"), colour, order) for order, colour in colours.items()]
    drawn.append((points(where(numbers.charges, order="random"), "bound"), "#888888", "proved bound"))
    draw(numbers.folder / "charges.svg", "720,460", head + GRID + lines(drawn))


def points(rows, column):
    return [(row["updates"], row[column]) for row in rows]


def draw_blocks(numbers):
    head = "set logscale x\nset key top right\nset xlabel 'nodes in a block (B)'\nset ylabel 'blocks that a search touches'\n"
    columns = [
        ("bound", "#888888", "proved bound"),
        ("most", "#b5302a", "the index, the most"),
        ("mean", "#e08a5f", "the index, the mean"),
        ("binary_most", "#1f4e79", "binary search, the most"),
        ("binary_mean", "#9cc3e6", "binary search, the mean"),
    ]
    drawn = [([(row["block_nodes"], row[column]) for row in numbers.blocks], *rest) for column, *rest in columns]
    draw(numbers.folder / "blocks.svg", "720,460", head + "set yrange [0:*]\n" + GRID + lines(drawn))


def draw_all(numbers):
    for rows, picture in (
        (numbers.times, draw_reads),
        (numbers.times, draw_growth),
        (numbers.puts, draw_puts),
        (numbers.charges, draw_charges),
        (numbers.blocks, draw_blocks),
    ):
        if rows:
            picture(numbers)
