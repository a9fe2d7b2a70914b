"""Times bench_c, bench_rust and timing, which run has built in a directory, and writes tables of ratios.
usage: ratios.py DIRECTORY

Each program is run in turn for ROUNDS rounds, and the least time of each job is taken. The program timing is run on a file
with 0 and with N repetitions; the difference of the two least times, by N and the number of lines, is the time of one job.
All times are processor times, so that waiting for a processor does not count.
"""
import os
import subprocess
import sys

ROUNDS = 7
OTHERS = 256  # rows of each kind that are not those of the texts
ROWS = [16, 64, 256, 1024, 4096]
FIELDS = [4, 16, 64, 256, 1024]
CODES = "ybnqiuxtdsgovh"

here = os.path.dirname(os.path.abspath(__file__))
out = sys.argv[1]


def processor_time(job, times, path):
    """The nanoseconds that the program timing takes."""
    with open(path) as lines:
        child = subprocess.Popen([f"{out}/timing", job, str(times)], stdin=lines, stdout=subprocess.DEVNULL)
        _, status, usage = os.wait4(child.pid, 0)
    child.returncode = os.waitstatus_to_exitcode(status)
    if child.returncode != 0:
        sys.exit(f"timing {job} {times} < {path}: status {child.returncode}")
    return (usage.ru_utime + usage.ru_stime) * 1e9


class Job:
    """A job of the program timing on a list of lines; those that begin with # are filed and not timed."""

    def __init__(self, job, name, lines):
        self.job = job
        self.path = f"{out}/{name}.txt"
        with open(self.path, "w") as f:
            f.write("".join(line + "\n" for line in lines))
        self.count = sum(not line.startswith("#") for line in lines)
        self.check()
        self.none = self.all = float("inf")
        self.times = 16
        while processor_time(job, self.times, self.path) < 8e7:
            self.times *= 2

    def check(self):
        """Every line that is timed has to be accepted: its number then equals it."""
        with open(self.path) as lines:
            said = subprocess.run([f"{out}/timing", "equal", "1"], stdin=lines, check=True, capture_output=True, text=True).stdout
        if not said.endswith(f" sum {self.count}\n"):
            sys.exit(f"{self.path}: {said}")

    def round(self):
        self.none = min(self.none, processor_time(self.job, 0, self.path))
        self.all = min(self.all, processor_time(self.job, self.times, self.path))

    def time(self):
        return (self.all - self.none) / self.times / self.count


def ask(program, path):
    """What bench_c or bench_rust say: times by name."""
    lines = subprocess.run([f"{out}/{program}", path], check=True, capture_output=True, text=True).stdout.splitlines()
    return {name: float(time) for name, time in (line.split("\t") for line in lines)}


def show(ratio):
    return f"{ratio:.2f}" if ratio < 10 else f"{ratio:.0f}"


def table(head, rows):
    for row in [head, ["---"] * len(head)] + rows:
        print("| " + " | ".join(row) + " |")
    print()


def compare(name):
    """The times of all jobs on the texts of a list."""
    path = f"{here}/{name}.txt"
    with open(path) as f:
        texts = f.read().split()
    others = ["#" + "m" * OTHERS + "y", "#(" + "n" * OTHERS + ")"]
    jobs = {
        "new": Job("new", name, texts),
        "known": Job("known", name, texts),
        "first": Job("known", name + "-first", texts + others),
        "last": Job("known", name + "-last", others + texts),
        "printing": Job("print", name, texts),
        "comparing": Job("equal", name, texts),
    }
    least = {}
    for _ in range(ROUNDS):
        for program in ["bench_c", "bench_rust"]:
            for job, time in ask(program, path).items():
                least[job] = min(time, least.get(job, time))
        for job in jobs.values():
            job.round()
    return least | {key: job.time() for key, job in jobs.items()}


def growth(cases):
    """Ratios to the first of the cases."""
    for _ in range(ROUNDS):
        for case in cases:
            case.round()
    return [show(case.time() / cases[0].time()) for case in cases]


short, long = compare("short"), compare("long")


def ratios(title, one, other):
    return [title] + [show(times[one] / times[other]) for times in (short, long)]


print("Judging a text: the time of another, by that of `signature_validate`\n")
table(["", "short", "long"], [ratios("libdbus", "libdbus", "validate"), ratios("GLib", "GLib", "validate")])

print("Reading a text: times by that of the Rust reader that makes and drops a tree\n")
table(["", "short", "long"], [
    ratios("Rust: tree", "tree", "tree"),
    ratios("Rust: known, by text", "known by text", "tree"),
    ratios("Rust: known, by tree", "known by tree", "tree"),
    ratios("`signature_validate`", "validate", "tree"),
    ratios("`from_bytes`: new, on a fresh sheet", "new", "tree"),
    ratios("`from_bytes`: known, no other rows", "known", "tree"),
    ratios(f"`from_bytes`: known, before {OTHERS} other rows of each kind", "first", "tree"),
    ratios(f"`from_bytes`: known, behind {OTHERS} other rows of each kind", "last", "tree"),
])

print("Known: times by that of the Rust reader with a `HashMap` of trees\n")
table(["", "short", "long"], [
    ratios("no other rows", "known", "known by tree"),
    ratios(f"before {OTHERS} other rows of each kind", "first", "known by tree"),
    ratios(f"behind {OTHERS} other rows of each kind", "last", "known by tree"),
])

print("Printing and comparing: times by those of the same on a Rust tree\n")
table(["", "short", "long"], [
    ratios("`to_string`", "printing", "print"),
    ratios("`eq_text`", "comparing", "equal"),
])

print("`from_bytes` of `a{sv}`, known, by the type rows in use: times by that at the fewest\n")
table(["rows"] + [str(n) for n in ROWS], [
    ["its row is the first"] + growth([Job("known", f"first-{n}", ["a{sv}", "#" + "m" * (n - 1) + "y"]) for n in ROWS]),
    ["its row is the last"] + growth([Job("known", f"last-{n}", ["#" + "m" * (n - 1) + "y", "a{sv}"]) for n in ROWS]),
])

print("One structure of basic fields, alone on its sheet, by their number: times by that at the fewest\n")
wide = {n: "(" + (CODES * n)[:n] + ")" for n in FIELDS}
table(["fields"] + [str(n) for n in FIELDS], [
    [title] + growth([Job(job, f"fields-{n}", [wide[n]]) for n in FIELDS])
    for title, job in [("`from_bytes`, known", "known"), ("`to_string`", "print"), ("`eq_text`", "equal")]
])
