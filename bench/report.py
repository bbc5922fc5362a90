#!/usr/bin/env python3
"""Merges readings of the benchmark, and draws the table and the plot of its page.

report.py merge FILE .. prints one results file of several readings of one CPU: a row a line and a library a column, with
the median time in ns, the spread, which is the greatest reading over the least, whether the library does the same, and
how. report.py table prints the table of README.md, report.py counts its table of instructions, and report.py plot
its picture, all from bench/results. A ratio is ours over another's: below 1 ours is faster. Ratios within a
tenth of 1 count as equal."""

import pathlib
import statistics
import sys

OURS = "conthiral"
ORIGINAL = "vob 4.0.1"
PEERS = ["fixedbitset", "bit-vec", "bit-set", "smallbitvec", "boost", "vector<bool>", "plain Rust"]
CPUS = ["x86-64-v2", "x86-64-v3"]
RESULTS = pathlib.Path(__file__).resolve().parent / "results"

# The rows of the page: their name, the call that is read, and its bits, or None for the one size there is.
ROWS = [
    ("`push`", "push", None),
    ("`get` at random", "get at random", None),
    ("`set` at random", "set at random", None),
    ("a walk over all bits", "iterate", None),
    ("`from_bytes`", "from_bytes", None),
    ("`set_range`", "set_range", None),
    ("`and`, 64 bits", "and", 64),
    ("`and`, 64K bits", "and", 1 << 16),
    ("`and_not`, 64K bits", "and_not", 1 << 16),
    ("`is_subset`, 1M bits", "is_subset", 1 << 20),
    ("`count_and`", "count_and", 1 << 20),
    ("`extend_from_vob` within a block", "extend_from_vob at +13", None),
    ("`split_off` within a block", "split_off misaligned", None),
    ("`==`", "equality", None),
    ("`hash`", "hash", None),
    ("`iter_set_bits`, 1 in 4096 set", "iter_set_bits, 1 in 4096 set", None),
    ("`iter_set_bits`, half set", "iter_set_bits, half set", None),
    ("`iter_unset_bits`, half set", "iter_unset_bits, half set", None),
    ("`next_set`, 1 in 64 set", "next_set, 1 in 64 set", None),
    ("`next_set`, half set", "next_set, half set", None),
    ("count of set bits", "count of set bits", None),
]

# The rows of the page that instructions are counted for, by their titles.
COUNTED = [
    ("closure of a matrix, 1000 nodes, 2 edges each", "matrix closure, 1000 nodes at 1000 bits"),
    ("the same with 20 edges each", "matrix closure, 1000 nodes, 20 edges at 1000 bits"),
    ("with 300 edges each", "matrix closure, 1000 nodes, 300 edges at 1000 bits"),
    ("4000 nodes, 2 edges each", "matrix closure, 4000 nodes at 4000 bits"),
    ("closure of lists, 1000 nodes, 2 edges each", "closure of lists, 1000 nodes at 1000 bits"),
    ("4000 nodes", "closure of lists, 4000 nodes at 4000 bits"),
    ("liveness, 10,000 nodes", "liveness, 10000 nodes at 1000 bits"),
    ("available expressions, 10,000 nodes", "available, 10000 nodes at 1000 bits"),
    ("transpose, 1000 by 1000, half set", "transpose 1000 x 1000 at 1000000 bits"),
    ("condition on three columns, 10,000,000 rows", "condition on three columns at 10000000 bits"),
    ("`intersection`, half set", "intersection at 1048576 bits"),
    ("`shl`", "shl at 1048576 bits"),
    ("`rotate_left`", "rotate_left at 1048576 bits"),
    ("`reverse`", "reverse at 1048576 bits"),
    ("`insert_bit`, then `remove`", "insert_bit and remove at 1048576 bits"),
    ("`<` of equal ones", "order of equal ones at 1048576 bits"),
    ("`flip` at random", "flip at random at 1048576 bits"),
]


def lines_of(path):
    """The head's lines, and the others cut at tabs."""
    lines = path.read_text(encoding="utf-8").splitlines()
    return [it for it in lines if it.startswith("#")], [it.split("\t") for it in lines if not it.startswith("#")]


def read(path):
    """A reading's head, and its times: (name, bits, unit) to library to (kind, mark, ns)."""
    head, lines = lines_of(path)
    rows = {}
    for name, bits, unit, library, kind, mark, ns in lines:
        rows.setdefault((name, int(bits), unit), {})[library] = (kind, mark, float(ns))
    return head, rows


def read_merged(path):
    """The same of a results file, without its head."""
    (titles, *lines) = lines_of(path)[1]
    rows = {}
    for name, bits, unit, *cells in lines:
        times = rows.setdefault((name, int(bits), unit), {})
        for library, cell in zip(titles[3:], cells):
            if cell:
                ns, _, kind, mark = cell.split(" ", 3)
                times[library] = (kind, mark, float(ns))
    return rows


def merge(paths):
    heads, readings = zip(*(read(path) for path in paths))
    libraries = list(dict.fromkeys(library for times in readings[0].values() for library in times))
    print("\n".join(heads[0]))
    print(f"# median of {len(paths)} readings, and the greatest over the least")
    print("\t".join(["row", "bits", "unit", *libraries]))
    for key, times in readings[0].items():
        cells = list(map(str, key))
        for library in libraries:
            found = [rows[key][library][2] for rows in readings if library in rows.get(key, {})]
            if not found:
                cells.append("")
                continue
            kind, mark, _ = times[library]
            spread = max(found) / min(found) if min(found) > 0 else 0
            cells.append(f"{statistics.median(found):.4g} {spread:.2f} {kind} {mark}")
        print("\t".join(cells))


def ratios(rows, call, bits):
    """Our time over vob 4.0.1's, and over the best peer's that does no less, with its name."""
    (times,) = [it for (name, size, _), it in rows.items() if name == call and bits in (None, size)]
    ours = times[OURS][2]
    original = times.get(ORIGINAL)
    peers = [(times[peer][2], peer) for peer in PEERS if peer in times and times[peer][0] in ("same", "other")]
    best = min(peers, default=None)
    return ours / original[2] if original else None, ours / best[0] if best else None, best[1] if best else ""


def shown(ratio):
    return "" if ratio is None else f"{ratio:.2g}"


def table():
    of = {cpu: read_merged(RESULTS / f"{cpu}.tsv") for cpu in CPUS}
    print("| Call | v2: of vob 4.0.1 | of the best peer | v3: of vob 4.0.1 | of the best peer |")
    print("|---|---|---|---|---|")
    for label, call, bits in ROWS:
        cells = [label]
        for cpu in CPUS:
            original, best, peer = ratios(of[cpu], call, bits)
            cells += [shown(original), f"{shown(best)} {peer}".strip()]
        print(f"| {' | '.join(cells)} |")


def counts():
    of = {}
    for title, library, kind, count, _ in lines_of(RESULTS / "instructions.tsv")[1]:
        of.setdefault(title, {})[library] = (kind, "", float(count))
    print("| Instructions at v3 | of vob 4.0.1 | of the best peer |")
    print("|---|---|---|")
    for label, title in COUNTED:
        original, best, peer = ratios({(title, 0, ""): of[title]}, title, None)
        print(f"| {label} | {shown(original)} | {f'{shown(best)} {peer}'.strip()} |")


def plot():
    rows = read_merged(RESULTS / "x86-64-v3.tsv")
    left, wide, high, most = 250, 360, 22, 2.0
    bottom = 40 + high * len(ROWS)
    at = lambda ratio: left + wide * min(ratio, most) / most
    print(f'<svg xmlns="http://www.w3.org/2000/svg" width="{left + wide + 60}" height="{bottom + 30}" font-family="sans-serif" font-size="12">')
    print(f'<rect width="100%" height="100%" fill="white"/>')
    print(f'<text x="{left}" y="16">our time over vob 4.0.1\'s (dark) and over the best peer\'s (light), x86-64-v3</text>')
    for tick in (0, 0.5, 1, 1.5, 2):
        stroke = "#c00" if tick == 1 else "#ddd"
        print(f'<line x1="{at(tick):.0f}" x2="{at(tick):.0f}" y1="26" y2="{bottom}" stroke="{stroke}"/>')
        print(f'<text x="{at(tick):.0f}" y="{bottom + 16}" text-anchor="middle">{tick:g}</text>')
    for k, (label, call, bits) in enumerate(ROWS):
        top = 30 + high * k
        print(f'<text x="{left - 8}" y="{top + 13}" text-anchor="end">{label.replace("`", "")}</text>')
        for row, (ratio, fill) in enumerate(zip(ratios(rows, call, bits), ("#246", "#8ac"))):
            if ratio is not None:
                print(f'<rect x="{left}" y="{top + 1 + 8 * row}" width="{at(ratio) - left:.1f}" height="7" fill="{fill}"/>')
                if ratio > most:
                    print(f'<text x="{at(ratio) + 4:.0f}" y="{top + 8 + 8 * row}" font-size="9">{ratio:.2g}</text>')
    print("</svg>")


def main(arguments):
    if arguments[:1] == ["merge"] and arguments[1:]:
        merge([pathlib.Path(path) for path in arguments[1:]])
    elif arguments == ["table"]:
        table()
    elif arguments == ["counts"]:
        counts()
    elif arguments == ["plot"]:
        plot()
    else:
        sys.exit(__doc__)


main(sys.argv[1:])
