"""The generated script of a number, and the line that is written of it (docs/GROUP.md, docs/REPORT.md)."""
import samples
from script import read_script
from serial_run import history

MOST_GENERATED = 600
NODES = 8


def generated_script(n):
    """The tree of the script: casts by consensus, the change to the sequencer, and casts by that."""
    def cast(tick, j, kind, value):
        return {"tick": tick, "node": j % NODES, "event": "cast", "args": [kind, value]}

    tree = samples.group(nodes=NODES, ticks=10 + 9 * n)
    tree["do"] = [cast(1 + 8 * j, j, 0, j) for j in range(n)]
    tree["do"].append(cast(1 + 8 * n, 0, 1, 0))
    tree["do"] += [cast(9 + 8 * n + j, j, 0, n + j) for j in range(n)]
    return tree


def made_line(n):
    run = history(read_script(samples.text(generated_script(n)).encode()))
    letters = [entry[0] for computation in run.computations for entry in computation.entries]
    return f"G {n} {len(run.computations)} {letters.count('D')} {letters.count('X')}\n"
