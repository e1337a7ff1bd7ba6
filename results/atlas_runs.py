"""The runs of results/atlas: what each did, when, how long, on which machine and with which program. The cache notes it, the document states it."""

import json
import os
import resource
import shutil
import subprocess
import time

from atlas_games import checksum
from gameshrink import Program, solvers
from gameshrink.program import machine


def kit():
    """Returns what the Rattle kit of this machine says of itself, or nothing where there is none."""
    if shutil.which("rt") is None:
        return ""
    return subprocess.run(["rt", "version"], capture_output=True, text=True, check=False).stdout.strip()


def processor_seconds():
    """Returns the processor seconds of this process and of all that it ran and waited for."""
    used = [resource.getrusage(who) for who in (resource.RUSAGE_SELF, resource.RUSAGE_CHILDREN)]
    return round(sum(one.ru_utime + one.ru_stime for one in used))


def note(asked, begun, counts, is_whole):
    """Notes a run in the cache; `counts` says how many records it made or confirmed, and how many stopped or were wrong."""
    record = {"run": "confirmed" if asked.confirm else "worked", "only": asked.only, "whole": is_whole, **counts}
    record |= {"when": time.strftime("%Y-%m-%d %H:%M", time.gmtime(begun)), "seconds": round(time.time() - begun)}
    record |= {"processor_seconds": processor_seconds(), "processes": asked.processes}
    if not asked.confirm:
        record |= {"limit": asked.seconds, "solvers": [solvers.floating_name(), solvers.exact_name()]}
        record |= {"hours": asked.hours} if asked.hours else {}
    record |= {"program": checksum(Program(asked.program)), "identity": Program(asked.program).identity, "kit": kit(), "machine": machine()}
    with open(os.path.join(asked.cache, "runs.jsonl"), "a", encoding="ascii") as file:
        file.write(json.dumps(record) + "\n")


def noted(cache):
    """Returns what the cache notes of its runs, in their order."""
    path = cache.path("runs.jsonl")
    if not os.path.exists(path):
        return []
    with open(path, encoding="ascii") as file:
        return [json.loads(line) for line in file]


def time_text(seconds):
    return "%d s" % seconds if seconds < 600 else "%.2f hours" % (seconds / 3600)


def what_text(run):
    """Returns what a run did."""
    some = " of `--only %s`" % run["only"] if run["only"] else ""
    end = "" if run["whole"] else ", broken off"
    if run["run"] == "confirmed":
        return "%d records%s confirmed, %d otherwise%s" % (run["records"] - run["wrong"], some, run["wrong"], end)
    left = ", %d more not ended" % run["stopped"] if run["stopped"] else ""
    limits = "each solver at most %d processor seconds" % run["limit"]
    limits += "; `--hours %s`" % run["hours"] if "hours" in run else ""
    return "%d records made%s%s%s (%s)" % (run["records"] - run["stopped"], some, left, end, limits)


def distinct(runs, key):
    """Returns the different texts of a key in order of first occurrence."""
    return list(dict.fromkeys(run[key] for run in runs if run.get(key)))


def lines(cache):
    """Returns the table of the runs, and on what they ran."""
    runs = noted(cache)
    rows = ["| begun, UTC | by the clock | of processors | processes | program's sha256 | what |", "| --- | --- | --- | --- | --- | --- |"]
    for run in runs:
        times = run["when"], time_text(run["seconds"]), time_text(run["processor_seconds"])
        rows.append("| %s | %s | %s | %d | `%s` | %s |" % (*times, run["processes"], run["program"][:16], what_text(run)))
    made = [run for run in runs if run["run"] == "worked"]
    machines, kits = (distinct(made, key) for key in ("machine", "kit"))
    identities = distinct(runs, "identity")
    facts = ["Machine: %s." % "; ".join(machines)] if machines else []
    facts += ["Solvers: %s." % " and ".join(dict.fromkeys(name for run in made for name in run["solvers"]))] if made else []
    facts += ["Kit: %s." % "; ".join("`%s`" % one for one in kits)] if kits else []
    facts += ["Program: %s." % "; ".join(identities)] if identities else []
    return rows + ["", " ".join(facts)]
