"""Programs that read their input and end: once whole, and then once for each of their allocations, which is refused."""
import os
import re
import subprocess

HERE = os.path.dirname(os.path.dirname(os.path.dirname(os.path.realpath(__file__))))
# What the commands read, by the ending of their examples' names, and what they write; and where these examples are.
COMMANDS = {"replay": (".script", ".transcript"), "show": (".stream", ".lines"), "judge": (".transcript", ".verdict")}
FOLDERS = {"replay": ("replay", "stories"), "show": ("show",), "judge": ("judge",)}
# The entries of a hub, of which the oldest is gone.
HUB = "hub 0\npublish 4097\nnext 0\nnext 1\nnext 4097\n"
READ = "0: lagged 0 1\n1: entry 2 zxid 4\n4097: none\n"
# The numbers of a `stress`: what its schedule is drawn from, its connections and its steps.
LOAD = ("7", "2", "40")


def text_of(path):
    with open(path, "rb") as it:
        return it.read()


class Ends:
    """How the runs of one sweep ended."""

    def __init__(self, name):
        self.name, self.kinds, self.wrong = name, {}, []

    def count(self, kind):
        self.kinds[kind] = self.kinds.get(kind, 0) + 1

    def blame(self, number, what):
        self.count("WRONG")
        self.wrong.append(f"{self.name}, allocation {number}: {what}")


def sweep(run, name, words, stdin, judge, wanted=None, status=0, folder=None):
    """Runs a program so. `wanted` and `status` are what it writes and ends with if nothing is refused; `judge` gives the kind of an end,
    from its status, how its output stands to that of the whole run, and what standard error said, or None if it is wrong."""
    ends, report = Ends(name), os.path.join(run.work, name.replace("/", "-"))
    environment = {**os.environ, "LD_PRELOAD": run.library, "REFUSE_SWEEP": report, "REFUSE_EVERY": str(run.every)}
    with open(stdin, "rb") as source:
        made = subprocess.run(words, stdin=source, cwd=folder, env=environment, stdout=subprocess.PIPE, stderr=subprocess.STDOUT)
    if made.returncode != 0:
        raise RuntimeError(f"{name}: status {made.returncode} {made.stdout}")
    with open(report, encoding="utf-8", errors="replace") as lines:
        for line in lines:
            number, found, relation, said = line.rstrip("\n").split(" ", 3)
            number, found = int(number), int(found)
            if number == 0:
                if found != status or wanted is not None and text_of(report + ".out") != wanted:
                    raise RuntimeError(f"{name}: with all its memory it ends with status {found}, or writes something else")
            elif found == status and relation == "same":
                ends.count("not needed")
            elif kind := judge(found, relation, said):
                ends.count(kind)
            else:
                ends.blame(number, f"status {found}, output {relation}, {said[:200]!r}")
    os.remove(report)
    os.remove(report + ".out")
    return ends


def out_of_memory(status, relation, _said):
    """The program's own end: status 7, after a front of what it writes otherwise."""
    return "status 7" if status == 7 and relation in ("front", "same") else None


def examples(run):
    """The worked examples of `replay`, `show` and `judge`."""
    for command, (ending, written) in COMMANDS.items():
        folders = [os.path.join(HERE, "examples", it) for it in FOLDERS[command]]
        for folder, file in sorted((folder, file) for folder in folders for file in os.listdir(folder)):
            name = file.removesuffix(ending)
            if name == file or not run.is_wanted(f"{command}/{name}"):
                continue
            path, status = os.path.join(folder, name), 0
            if os.path.exists(path + ".status"):
                status = int(text_of(path + ".status"))
            yield lambda name=f"{command}/{name}", command=command, path=path, status=status: sweep(
                run, name, [run.program, command], path + ending_of(command), out_of_memory, text_of(path + written_of(command)), status)


def ending_of(command):
    return COMMANDS[command][0]


def written_of(command):
    return COMMANDS[command][1]


def load(run):
    """A small load, which reads nothing."""
    if run.is_wanted("stress"):
        yield lambda: sweep(run, "stress", [run.program, "stress", *LOAD], os.devnull, out_of_memory)


def first_row(path, beginning):
    with open(path, encoding="utf-8") as lines:
        return next(line for line in lines if line.startswith(beginning))


def rows(run):
    """One connection over streams in memory, and a hub whose oldest entry is gone."""
    if run.conn_rows and run.is_wanted("connection"):
        row = first_row(os.path.join(HERE, "crates", "conn_rows", "data", "rows"), "serve 7 ")
        folder = os.path.join(run.work, "conn_rows")
        os.makedirs(folder, exist_ok=True)
        with open(os.path.join(folder, "rows"), "w", encoding="utf-8") as it:
            it.write(row)
        packets = row.rstrip("\n").split(" ")[-1]

        def judge(status, relation, said):
            # A refusal before or after the call makes no row; one in it is told as what the row comes to.
            told = re.match(r"differs rows line 1: (memory|write) ([0-9a-f]*|-);", said)
            if status == 1 and relation == "same" and told:
                front = told[2].replace("-", "")
                return f"cause {told[1]}" if packets.startswith(front) else None
            return "no row" if status == 1 and relation == "same" and "memory" in said.lower() and "differs" not in said else None

        yield lambda: sweep(run, "connection", [run.conn_rows], os.devnull, judge, b"", 0, folder)
    if run.hub_rows and run.is_wanted("hub"):
        script = os.path.join(run.work, "hub.script")
        with open(script, "w", encoding="utf-8") as it:
            it.write(HUB)

        def is_told(status, relation, said):
            return "out of memory" if status == 1 and relation == "front" and "memory" in said.lower() else None

        yield lambda: sweep(run, "hub", [run.hub_rows], script, is_told, READ.encode())
