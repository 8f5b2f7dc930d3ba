"""A run of the model: what `cetvm` prints of it, its exit status and its line on standard error."""
from machine import Run
from schedules import play



def outcome(program, settings):
    run = Run(program, settings)
    play(run)
    return run


def status(run):
    kind, number = run.process().split(" ")
    if kind == "killed":
        return 7, f"cetvm: killed by {number}"
    return (8, f"cetvm: limit in thread {number}") if kind == "limit" else (0, "")
