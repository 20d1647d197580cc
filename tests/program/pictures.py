"""pictures.py SITE LISTING SVG TEXT SUMS: the rows in each are those of the listing, and the sums add up to its cost."""
import re
import sys
import xml.etree.ElementTree as tree

site, listing, svg, text, sums = sys.argv[1:]
numbers = [int(n) for n in open(site).read().split()]
settings = numbers[0]
idle_power = numbers[4] if settings > 3 else 0
levels = numbers[settings + 1]
tasks = numbers[settings + 2 + 2 * levels]
after = settings + 3 + 2 * levels
periods = numbers[after:after + 3 * tasks:3]
deadlines = numbers[after + 3 * tasks + 1:] or periods
lines = [line.split() for line in open(listing)]
span = int(lines[0][1])
cost = [int(n) for n in lines[1][1:]]
core_of = {int(w[1]): int(w[3]) for w in lines if w[0] == "task" and w[2] != "refused"}
ticks_of = {int(w[1]): int(w[7]) for w in lines if w[0] == "task" and w[2] != "refused"}
rows = {int(w[1]): [int(n) for n in w[2:]] for w in lines if w[0] == "core"}
awake = {c for c in rows if c in core_of.values()}
idle_energy = idle_power * sum(row.count(0) for c, row in rows.items() if c in awake)
problems = []


def must(so, what):
    if not so:
        problems.append(what)


def rectangles(root):
    space = "{http://www.w3.org/2000/svg}"
    drawn, width, height = {core: [] for core in rows}, float(root.get("width")), float(root.get("height"))
    runs = [r for r in root.iter(space + "rect") if r.get("class") == "run"]
    left = min(float(r.get("x")) for r in runs)
    tick = float(runs[0].get("width")) / int(runs[0].get("data-ticks"))
    tops = {}
    for r in runs:
        core, task = int(r.get("data-core")), int(r.get("data-task"))
        first, ticks = int(r.get("data-first")), int(r.get("data-ticks"))
        must(first == len(drawn[core]), "a run begins where the one before ends")
        must(not drawn[core] or drawn[core][-1] != task, "runs of equal slots are one rectangle")
        must(float(r.get("x")) == left + first * tick, "a rectangle stands at its tick")
        must(float(r.get("width")) == ticks * tick, "a rectangle is as wide as its ticks")
        must(tops.setdefault(core, r.get("y")) == r.get("y"), "a core has one lane")
        drawn[core] += [task] * ticks
    must(len(set(tops.values())) == len(tops), "each core has its own lane")
    must(drawn == rows, "the rectangles are the rows")
    fills = {(r.get("data-task"), r.get("fill")) for r in runs}
    must(len(fills) == len({t for t, f in fills}) == len({f for t, f in fills}), "a colour for each task")
    for t in root.iter(space + "text"):
        must(0 <= float(t.get("x")) <= width and 0 <= float(t.get("y")) <= height, "a text within the picture")
    legend = [t.text for t in root.iter(space + "text") if t.text and t.text.startswith("task ") and ":" in t.text]
    must(len(legend) == tasks, "a line of the legend for each task")
    marks = {int(g.get("data-task")): [int(p.get("d")[1:].split()[0]) for p in g] for g in root.iter(space + "g")}
    for task in core_of:
        releases = [left + r * tick for r in range(0, span, periods[task - 1])]
        jobs = [(r, r, r + deadlines[task - 1] * tick - 3) for r in releases]
        must(marks[task] == [x for job in jobs for x in job], "each job's release and due tick")
    must(set(marks) == set(core_of), "the jobs of the tasks that run")


def job_character(task, tick):
    within, deadline = tick % periods[task - 1], deadlines[task - 1]
    return " " if within >= deadline else "|" if deadline == 1 else "[" if within == 0 else "]" if within == deadline - 1 else "-"


def rows_of_text():
    drawn, first = {core: "" for core in rows}, 0
    for line in open(text):
        must(len(line) <= 81 or not line.startswith("core"), "lines of a fixed width")
        if line.startswith("tick "):
            first = int(line.split()[1])
        if line.startswith("core "):
            drawn[int(line[5])] += line[8:].rstrip("\n")
        if line.startswith("     ") and line[6:8] == "  ":
            task = ".123456789abc".index(line[5])
            jobs = "".join(job_character(task, t) for t in range(first, min(first + 60, span)))
            must(line[8:].rstrip("\n") == jobs.rstrip(), "the jobs of a task")
    must({c: [".123456789abc".index(x) for x in r] for c, r in drawn.items()} == rows, "the text is the rows")


def check_sums():
    words = open(sums).read()
    for left, right in re.findall(r"(\d+(?: +[+x] +\d+)+) = +(\d+)", words):
        must(eval(left.replace("x", "*")) == int(right), f"{left} = {right}")
    totals = [int(n) for n in re.findall(r"^  (?:all energy|all penalty|cost) +(\d+)$", words, re.M)]
    must(totals == cost, "the totals are the listing's")
    idle = [int(n) for n in re.findall(r"^  idle energy +(\d+)$", words, re.M)]
    must(idle == ([idle_energy] * 2 if idle_power else []), "the idle energy is that of the awake cores")
    off = {int(n) for n in re.findall(r"^ +(\d+) +off: ", words, re.M)}
    must(off == (set(rows) - awake if idle_power else set()), "the cores that are off")
    due = {int(c): (int(d), int(t)) for c, d, t in re.findall(r"^  core (\d+)\n.*\n +due +(?:[\d+ ]+ = )?(\d+) by tick (\d+),", words, re.M)}
    early = any(d < p for d, p in zip(deadlines, periods))
    must(set(due) == (awake if early else set()), "what is due on the awake cores")
    for core, (ticks, tick) in due.items():
        of = [t for t in core_of if core_of[t] == core]
        least = [sum(ticks_of[t] * ((x + periods[t - 1] - deadlines[t - 1]) // periods[t - 1]) for t in of) - x for x in range(1, span + 1)]
        must(ticks - tick == max(least) <= 0, "the tick by which least is to spare")
    drawn = {}
    for part in re.split(r"^core ", words, flags=re.M)[1:]:
        drawn[int(part.split(",")[0])] = [int(n) for line in part.splitlines()[1:] for n in line.partition(":")[2].split()]
    must(drawn == rows, "the rows of the sums")


rectangles(tree.parse(svg).getroot())
rows_of_text()
check_sums()
for problem in sorted(set(problems)):
    print("program:", site, "not so:", problem)
sys.exit(1 if problems else 0)
