"""The proof files that run the definitions of the crates beside this program, and whether they stand as it writes them."""
import os

import proof_moments
import proof_runs
import proof_walk

ROOT = os.path.dirname(os.path.dirname(os.path.abspath(__file__)))


def makers():
    """What writes each file, by its path in the repository."""
    grammar = {f"crates/samoa_grammar/proofs/{name}.antt": maker for name, maker in proof_walk.FILES.items()}
    serial = {f"crates/samoa_serial/proofs/{name}.antt": maker
              for name, maker in {**proof_moments.FILES, **proof_runs.FILES}.items()}
    return {**grammar, **serial, "crates/samoa_laws/proofs/trace/ReferenceReport.antt": proof_runs.group_file}


def standing(path):
    """The text that stands at a path, or None."""
    try:
        with open(path, encoding="utf-8") as file:
            return file.read()
    except FileNotFoundError:
        return None


def write(root=ROOT):
    """Writes all files. The paths of those that stood otherwise."""
    changed = []
    for path, maker in makers().items():
        text = maker()
        place = os.path.join(root, path)
        if standing(place) != text:
            with open(place, "w", encoding="utf-8") as file:
                file.write(text)
            changed.append(path)
    return changed


def differing(root=ROOT):
    """The paths of those files that don't stand as they would be written. Nothing is written."""
    return [path for path, maker in makers().items() if standing(os.path.join(root, path)) != maker()]
