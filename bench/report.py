#!/usr/bin/env python3
"""Runs the benchmark and writes its results as Markdown tables and a plot.

report.py BENCH TUNED PROGRAM DIR: in DIR/PERFORMANCE.md, what stands between the two marks is written anew (the file is made
where there is none); DIR/performance.svg is the plot. BENCH has the plain implementation, TUNED the one with the proved
code's shortcuts. Instructions are callgrind's, and the same in every run; times are medians over interleaved pairs of calls.
Families with a gap in the question are kept apart from those without, so that the means of the latter stay comparable. Ends with
status 1 where the import of some text of 65,536 bytes takes more than ten times the instructions of a typical one.

report.py import BENCH: prints what is measured of the import, with the same end.

report.py OLD NEW: prints the instructions of the proved calls in the bench NEW against those in OLD, a bench with another
library, for the questions without a gap.
"""
import math
import os
import re
import subprocess
import sys
import tempfile
import time
from pathlib import Path

BEGIN, END = "<!-- results: written by bench/report.py -->", "<!-- end of results -->"
SIZES = [64, 128, 256, 512, 1024]
# bytes of a text to import, its first family, and how much more the import of another one may take
TEXT_SIZES = [4096, 8192, 16384, 32768, 65536]
TYPICAL, WORST_AIM = "typical export", 10
# facts and questions of the program's inputs: 32,768 bytes hold no more questions over a full table, and no more facts
# under 1,500 questions
PROGRAM_INPUTS = [(1024, 779), (78, 1500)]
# a 'rep stosb' is one instruction of the processor, but valgrind counts one for each byte: memset is to use plain stores
TUNABLES = "glibc.cpu.x86_rep_stosb_threshold=1000000000:glibc.cpu.x86_rep_movsb_threshold=1000000000"
COLOURS = ["#1b6ca8", "#d1495b", "#2e8b57", "#b8860b", "#6a4c93", "#e07a1f", "#444444", "#17a2a2", "#a0522d", "#c71585"]


def output(*command, **more):
    return subprocess.run(command, check=True, stdout=subprocess.PIPE, **more).stdout


def callgrind(*command, whole=False, **more):
    """What callgrind collects, in order, by the name under which it was dumped ('' where it was not): instructions by function."""
    calls = [f"{who}_{call}" for who in ("factbox", "plain") for call in ("question", "check", "import")]
    collect = [] if whole else [f"--toggle-collect={call}" for call in calls]
    with tempfile.TemporaryDirectory() as folder:
        tool = ["valgrind", "--tool=callgrind", "--compress-strings=no", f"--callgrind-out-file={folder}/out"]
        output(*tool, *collect, *command, stderr=subprocess.DEVNULL, env={**os.environ, "GLIBC_TUNABLES": TUNABLES}, **more)
        dumps = {}
        for path in sorted(Path(folder).iterdir(), key=lambda path: int(path.suffix[1:] or 0)):
            text = path.read_text(errors="replace")
            name = re.search(r"Trigger: Client Request: (.*)", text)
            dumps[name[1] if name else ""] = by_function(text)
        return dumps


def by_function(dump):
    """The instructions of each function, its callees' apart."""
    counts, function, callee = {}, None, False
    for line in dump.splitlines():
        if line.startswith("fn="):
            function = re.sub(r"'.*", "", line[3:])
        elif line.startswith("calls="):
            callee = True
        elif re.match(r"[+*\d-]", line):
            if not callee:
                counts[function] = counts.get(function, 0) + int(line.split()[1])
            callee = False
    return counts


def geometric_mean(values):
    return math.exp(sum(map(math.log, values)) / len(values))


def table(head, rows, right=True):
    lines = [head, ["---"] + ["---:" if right else "---"] * (len(head) - 1)] + rows
    return "\n".join("| " + " | ".join(line) + " |" for line in lines) + "\n"


def function_table(dumps, call, families, size=SIZES[-1]):
    """Which functions the instructions of the proved call are spent in, at the largest size."""
    rows = []
    for family in families:
        counts = dumps.get(f"{family}\t{size}\t{call}\tproved")
        if counts:
            total = sum(counts.values())
            largest = sorted(counts.items(), key=lambda item: -item[1])[:5]
            rows.append([family, ", ".join(f"`{name}` {100 * n / total:.0f} %" for name, n in largest)])
    return table(["Family", "Functions"], rows, right=False)


def totals(dumps):
    return {name: sum(by.values()) for name, by in dumps.items()}


def families_of(counts):
    return list(dict.fromkeys(name.split("\t")[0] for name in counts if name))


def instruction_table(call, counts, families, sizes=SIZES):
    rows, ratios, growths = [], [], []
    for family in families:
        proved, plain = ([counts.get(f"{family}\t{n}\t{call}\t{who}") for n in sizes] for who in ("proved", "plain"))
        if proved[0] is None:
            continue
        ratio = [a / b for a, b in zip(proved, plain)]
        growth = proved[-1] / proved[-2]
        ratios += ratio
        growths.append(growth)
        rows.append([family, f"{proved[-1]:,}", f"{plain[-1]:,}", *(f"{r:.2f}" for r in ratio), f"{growth:.2f}"])
    before, last = (f"{n:,}" for n in sizes[-2:])
    head = ["Family", f"proved, {last}", f"plain, {last}", *(f"ratio, {n:,}" for n in sizes), f"growth {before} to {last}"]
    return table(head, rows), ratios, max(growths)


def time_table(call, times, families, sizes=SIZES):
    rows, ends = [], (sizes[0], sizes[-1])
    for family in families:
        if (family, sizes[0], call, "same") in times:
            cells = []
            for n in ends:
                (ratio, proved, plain), (same, _, _) = (times[family, n, call, mode] for mode in ("other", "same"))
                cells += [f"{float(proved) / 1000:.1f}", f"{float(plain) / 1000:.1f}", f"{float(ratio):.2f}", f"{float(same):.2f}"]
            rows.append([family, *cells])
    return table(["Family", *(f"{what}, {n:,}" for n in ends for what in ("proved", "plain", "ratio", "ratio, same"))], rows)


def against_typical(figures):
    """By a figure for each family of texts of the largest size, the most that one takes of what a typical one takes, and which."""
    family = max(figures, key=figures.get)
    return figures[family] / figures[TYPICAL], family


def worst_texts(texts):
    """The same by instructions and by times, proved and plain."""
    size = TEXT_SIZES[-1]
    worst = {}
    for place, who in ((1, "proved"), (2, "plain")):
        worst[who, "instructions"] = against_typical({f: texts.counts[f"{f}\t{size}\timport\t{who}"] for f in texts.families})
        worst[who, "time"] = against_typical({f: float(texts.times[f, size, "import", "other"][place]) for f in texts.families})
    return worst


def program_table(bench, program):
    rows, ratios = [], []
    for facts, questions in PROGRAM_INPUTS:
        words = [str(facts), str(questions)]
        data = output(bench, "input", *words)
        whole = sum(callgrind(program, whole=True, input=data)[""].values())
        calls = sum(callgrind(bench, "sum", *words)[""].values())
        seconds, sums = [], []
        for _ in range(11):
            start = time.perf_counter()
            output(program, input=data)
            seconds.append(time.perf_counter() - start)
            sums.append(float(output(bench, "sum", *words)) / 1e9)
        clock = sorted(seconds)[5] / sorted(sums)[5]
        ratios.append(whole / calls)
        rows.append([f"{questions:,} over {facts:,} facts", f"{whole:,}", f"{calls:,}", f"{ratios[-1]:.2f}", f"{1000 * sorted(seconds)[5]:.1f}", f"{clock:.2f}"])
    return table(["Questions", "instructions of the program", "of its calls", "ratio", "milliseconds", "ratio of times"], rows), ratios


def chart(x0, title, counts, families, call, top):
    """One plot: the ratio by the number of facts, a line for each family."""
    width, height, y0 = 330, 300, 340
    x = lambda i: x0 + i * width / (len(SIZES) - 1)
    y = lambda r: y0 - r / top * height
    text = lambda px, py, s, anchor="middle": f'<text x="{px:.0f}" y="{py:.0f}" text-anchor="{anchor}">{s}</text>'
    svg = [f'<text x="{x0 + width / 2}" y="24" text-anchor="middle" font-weight="bold">{title}</text>']
    for tick in range(int(top) + 1):
        svg.append(f'<line x1="{x0}" x2="{x0 + width}" y1="{y(tick):.0f}" y2="{y(tick):.0f}" stroke="{"#000" if tick == 1 else "#ddd"}"/>')
        svg.append(text(x0 - 8, y(tick) + 4, tick, "end"))
    svg += [text(x(i), y0 + 18, f"{n:,}") for i, n in enumerate(SIZES)]
    svg.append(text(x0 + width / 2, y0 + 38, "facts"))
    for family, colour in zip(families, COLOURS):
        pairs = [(counts.get(f"{family}\t{n}\t{call}\tproved"), counts.get(f"{family}\t{n}\t{call}\tplain")) for n in SIZES]
        if pairs[0][0]:
            points = " ".join(f"{x(i):.1f},{y(a / b):.1f}" for i, (a, b) in enumerate(pairs))
            svg.append(f'<polyline points="{points}" fill="none" stroke="{colour}" stroke-width="2"/>')
    return svg


def plot(counts, families, top):
    svg = ['<svg xmlns="http://www.w3.org/2000/svg" width="1010" height="390" font-family="sans-serif" font-size="12">',
           '<rect width="100%" height="100%" fill="white"/>']
    svg += chart(40, "question: instructions, proved / plain C", counts, families, "question", top)
    svg += chart(430, "check: instructions, proved / plain C", counts, families, "check", top)
    for i, (family, colour) in enumerate(zip(families, COLOURS)):
        at = 60 + 22 * i
        svg.append(f'<line x1="790" x2="815" y1="{at}" y2="{at}" stroke="{colour}" stroke-width="2"/>')
        svg.append(f'<text x="822" y="{at + 4}">{family}</text>')
    return "\n".join(svg + ["</svg>"]) + "\n"


def ratio_table(counts, families, calls=("question", "check")):
    """The ratios of the calls by family and size, and their geometric means."""
    rows, means = [], []
    for call in calls:
        _, ratios, _ = instruction_table(call, counts, families)
        means.append(geometric_mean(ratios))
        for family in families:
            pairs = [(counts.get(f"{family}\t{n}\t{call}\tproved"), counts.get(f"{family}\t{n}\t{call}\tplain")) for n in SIZES]
            if pairs[0][0]:
                rows.append([f"{call}: {family}" if len(calls) > 1 else family, *(f"{a / b:.2f}" for a, b in pairs)])
    return table(["Call and family" if len(calls) > 1 else "Family", *(f"{n:,}" for n in SIZES)], rows), means


def worst(counts, families):
    """The largest ratio of a question, and where it is."""
    ratios = {(family, n): counts[f"{family}\t{n}\tquestion\tproved"] / counts[f"{family}\t{n}\tquestion\tplain"] for family in families for n in SIZES}
    family, n = max(ratios, key=ratios.get)
    return f"{ratios[family, n]:.2f} at most ({family}; {n:,} facts)"


class Measured:
    """All that is measured of one kind of families: without a gap in the question ("whole"), with one ("gap"), or of texts
    ("import"). For these plain C has no shortcuts that it could take."""

    def __init__(self, kind, bench, tuned=None):
        self.times = {}
        for line in output(bench, "time", kind).decode().splitlines():
            family, n, call, mode, *values = line.split("\t")
            self.times[family, int(n), call, mode] = values
        self.dumps = callgrind(bench, "count", kind)
        self.counts = totals(self.dumps)
        self.families = families_of(self.counts)
        self.tuned = totals(callgrind(tuned, "count", kind)) if tuned else {}


def import_summary(texts):
    _, ratios, growth = instruction_table("import", texts.counts, texts.families, TEXT_SIZES)
    worst = worst_texts(texts)
    said = lambda who: ", ".join(f"{what} {worst[who, what][0]:.2f} ({worst[who, what][1]})" for what in ("instructions", "time"))
    return [
        ["the import against plain C with hash tables, geometric mean", f"{geometric_mean(ratios):.2f}; {max(ratios):.2f} at most"],
        ["growth of the import from 32,768 to 65,536 bytes, in each family", f"{growth:.2f} at most"],
        [f"the import of any text of 65,536 bytes against a typical one: at most {WORST_AIM}.00", said("proved")],
        ["the same of plain C", said("plain")],
    ]


def summary_of(whole, gap, texts, program_ratios):
    _, question_ratios, question_growth = instruction_table("question", whole.counts, whole.families)
    _, check_ratios, check_growth = instruction_table("check", whole.counts, whole.families)
    _, gap_ratios, gap_growth = instruction_table("question", gap.counts, gap.families)
    tuned = ratio_table(whole.tuned, whole.families)[1]
    gap_tuned = ratio_table(gap.tuned, gap.families, ["question"])[1]
    means = [f"{geometric_mean(ratios):.2f}" for ratios in (question_ratios, check_ratios, question_ratios + check_ratios)]
    return table(["Aim", "Measured"], [
        ["instructions against plain C, geometric mean: at most 1.00", f"question {means[0]}, check {means[1]}, both {means[2]}"],
        ["the same, with the proved code's three shortcuts built into plain C", f"question {tuned[0]:.2f}, check {tuned[1]:.2f}"],
        ["a question with a gap against plain C, geometric mean: at most 1.50", f"{geometric_mean(gap_ratios):.2f}; {worst(gap.counts, gap.families)}"],
        ["the same, with the three shortcuts in plain C", f"{gap_tuned[0]:.2f}; {worst(gap.tuned, gap.families)}"],
        ["growth from 512 to 1,024 facts, in each family: at most 2.30", f"question {question_growth:.2f}, with a gap {gap_growth:.2f}, check {check_growth:.2f} at most"],
        ["instructions of the program against the sum of its calls: at most 2.00", ", ".join(f"{r:.2f}" for r in program_ratios)],
        *import_summary(texts),
    ], right=False)


def import_sections(texts):
    return [
        ("Instructions of one import, by the text's bytes", instruction_table("import", texts.counts, texts.families, TEXT_SIZES)[0]),
        ("Where the instructions of an import go, 65,536 bytes", function_table(texts.dumps, "import", texts.families, TEXT_SIZES[-1])),
        ("Times of one import, microseconds", time_table("import", texts.times, texts.families, TEXT_SIZES)),
    ]


def sections(whole, gap, texts, programs):
    """The results in full: headings, each with what stands under it."""
    both = "Another table at every call, and in the last column of each size the same one. Medians over interleaved pairs of calls."
    shortcuts = "`bench/plain.c` with `TUNED`: fields are read and written without a loop, a well-formed fact is told by three ranges."
    return [
        ("Instructions of one question", instruction_table("question", whole.counts, whole.families)[0]),
        ("Instructions of one question with a gap", instruction_table("question", gap.counts, gap.families)[0]),
        ("Instructions of one check of the derivation printed", instruction_table("check", whole.counts, whole.families)[0]),
        ("Ratios against plain C with the proved code's shortcuts", shortcuts + "\n\n" + ratio_table(whole.tuned, whole.families)[0]),
        ("The same ratios of a question with a gap", ratio_table(gap.tuned, gap.families, ["question"])[0]),
        ("Where the instructions of a question go, 1,024 facts", function_table(whole.dumps, "question", whole.families)),
        ("Where the instructions of a question with a gap go, 1,024 facts", function_table(gap.dumps, "question", gap.families)),
        ("Where the instructions of a check go, 1,024 facts", function_table(whole.dumps, "check", whole.families)),
        ("Times of one question, microseconds", both + "\n\n" + time_table("question", whole.times, whole.families)),
        ("Times of one question with a gap, microseconds", time_table("question", gap.times, gap.families)),
        ("Times of one check, microseconds", time_table("check", whole.times, whole.families)),
        ("The program against the sum of its calls", programs),
        *import_sections(texts),
    ]


def demand_worst(texts):
    """Ends with status 1 where the import of some text takes too many instructions. Its time is shown, and no limit: other work on the
    machine can make one of two calls many times slower."""
    ratio, family = worst_texts(texts)["proved", "instructions"]
    if ratio > WORST_AIM:
        sys.exit(f"report.py: the import of \"{family}\" takes {ratio:.1f} times the instructions of a typical one; the aim is at most {WORST_AIM}")


def print_imports(bench):
    texts = Measured("import", bench)
    print(table(["Aim", "Measured"], import_summary(texts), right=False))
    print("\n".join(f"### {heading}\n\n{body}" for heading, body in import_sections(texts)))
    demand_worst(texts)


def write_report(bench, tuned, program, folder):
    whole, gap, texts = Measured("whole", bench, tuned), Measured("gap", bench, tuned), Measured("import", bench)
    programs, program_ratios = program_table(bench, program)
    summary = summary_of(whole, gap, texts, program_ratios)
    compiler = output("cc", "--version").decode().splitlines()[0]
    text = "\n".join([
        BEGIN, "",
        summary,
        f"Plain C: `bench/plain.c` and `bench/plain_import.c`, {compiler}, -O2. Ratio: proved / plain.", "",
        "![Ratio of instructions by family and number of facts](performance.svg)", "",
        *(f"### {heading}\n\n{body}" for heading, body in sections(whole, gap, texts, programs)),
        END,
    ])
    path = Path(folder) / "PERFORMANCE.md"
    old = path.read_text() if path.exists() else f"# Performance\n\n{BEGIN}\n{END}\n"
    path.write_text(re.sub(re.escape(BEGIN) + ".*?" + re.escape(END), lambda _: text, old, flags=re.S))
    ratios = [ratio for call in ("question", "check") for ratio in instruction_table(call, whole.counts, whole.families)[1]]
    (Path(folder) / "performance.svg").write_text(plot(whole.counts, whole.families, math.ceil(max(ratios))))
    print(summary + f"written to {path}")
    demand_worst(texts)


def compare(old, new):
    """Prints the instructions of the proved calls without a gap, new against old, by family and size."""
    before, after = (totals(callgrind(bench, "count", "whole")) for bench in (old, new))
    for call in ("question", "check"):
        rows, means, all_ratios = [], [], []
        for family in families_of(before):
            names = [f"{family}\t{n}\t{call}\tproved" for n in SIZES]
            if names[0] in before:
                ratios = [after[name] / before[name] for name in names]
                means.append(geometric_mean(ratios))
                all_ratios += ratios
                rows.append([family, f"{before[names[-1]]:,}", f"{after[names[-1]]:,}", *(f"{r:.4f}" for r in ratios), f"{means[-1]:.4f}"])
        head = ["Family", "old, 1,024", "new, 1,024", *(f"new / old, {n:,}" for n in SIZES), "mean"]
        print(f"### Instructions of one {call} without a gap, new against old\n\n" + table(head, rows))
        print(f"Geometric mean {geometric_mean(all_ratios):.4f} (aim: at most 1.02); largest mean of a family {max(means):.4f}, "
              f"largest of a family and size {max(all_ratios):.4f} (aim: at most 1.05).\n")


if __name__ == "__main__":
    if len(sys.argv) == 5:
        write_report(*sys.argv[1:])
    elif len(sys.argv) == 3 and sys.argv[1] == "import":
        print_imports(sys.argv[2])
    elif len(sys.argv) == 3:
        compare(*sys.argv[1:])
    else:
        sys.exit(__doc__)
