"""What the logs of tools/build, of tools/proof-times and of .ci/run say of their times."""
import re
import subprocess
import textwrap

from kit import TOP

BUILT = re.compile(r"^build: (?:\d+ of \d+, )?(\w+) (\d+) s")
WHOLE = re.compile(r"^build: .*; (\d+) s in all$")
STEP = re.compile(r"^gate: (.*) took (\d+) s$")
# What a crate takes that is told, in seconds.
SLOW = 200
ANEW = "every proof and must-fail edit was done in this run"


def lines_of(file):
    with open(file, encoding="utf-8", errors="replace") as lines:
        return lines.read().splitlines()


def filled(text):
    return textwrap.fill(text, 100, break_on_hyphens=False) + "\n"


def minutes(seconds):
    return f"{seconds / 60:.0f} minutes" if seconds >= 90 else f"{seconds} seconds"


def seconds_of_crates(file):
    found = {at[1]: int(at[2]) for at in map(BUILT.match, lines_of(file)) if at}
    if not found:
        raise ValueError(f"{file} has no times of crates")
    return found


def stands_on():
    """Returns which crates each crate stands on."""
    with open(f"{TOP}/crates.txt", encoding="utf-8") as lines:
        rows = [it.split(":", 1) for it in lines if ":" in it and not it.startswith("#")]
    return {name: rest.split() for name, rest in rows}


def longest_chain(names, seconds, stands):
    """Returns those of these crates that wait for one another, and take longest."""
    time_of = lambda chain: sum(seconds[it] for it in chain)
    chains = {}

    def chain_to(name):
        if name not in chains:
            below = [chain_to(it) for it in stands[name] if it in names]
            chains[name] = [*max(below, key=time_of, default=[]), name]
        return chains[name]

    return max(map(chain_to, names), key=time_of)


def of_program(seconds, stands):
    """Returns the crates of these that the program stands on, and the program."""
    found = ["rooms"]
    for name in found:
        found += [it for it in stands.get(name, []) if it not in found]
    return [it for it in seconds if it in found]


def whole_time(file, seconds, stands):
    """Returns how long the whole build took, or nothing. A log that doesn't say it was made when
    the build began. It is no less than its longest chain, nor more than all crates."""
    told = [int(at[1]) for at in map(WHOLE.match, lines_of(file)) if at]
    if told:
        return sum(told)
    said = subprocess.run(["stat", "-c", "%W %Y", file], capture_output=True, text=True, check=True)
    born, changed = said.stdout.split()
    took = int(changed) - int(born)
    # (each crate's seconds are rounded)
    least = sum(seconds[it] - 1 for it in longest_chain(seconds, seconds, stands))
    return took if least <= took <= sum(seconds.values()) else None


def build_table(file):
    """Returns the seconds of the slowest crates, and the longest chains of all: that of the
    program, and that of all."""
    seconds, stands = seconds_of_crates(file), stands_on()
    found = ", ".join(f"`{name}` {took}" for name, took in seconds.items() if took >= SLOW)
    text = filled(f"Crates that take {SLOW} seconds and more: {found}.")
    chains = {}
    parts = {"the program's crates": of_program(seconds, stands), "all of these": [*seconds]}
    for what, names in parts.items():
        chain = longest_chain(names, seconds, stands)
        chains.setdefault(tuple(chain), what)
    for chain, what in chains.items():
        took = sum(seconds[it] for it in chain)
        told = ", ".join(f"`{it}`" for it in chain)
        text += "\n" + filled(f"The longest chain of {what} takes {took:,} seconds: {told}.")
    took = whole_time(file, seconds, stands)
    side = f", and side by side it took {took:,}" if took else ""
    text += "\n" + filled(f"Together that is {sum(seconds.values()):,} seconds{side}.")
    return text


def first_build(file, when):
    """Says how long the first build took."""
    seconds, stands = seconds_of_crates(file), stands_on()
    took = whole_time(file, seconds, stands)
    if not took:
        raise ValueError(f"{file} doesn't say how long it took in all")
    if "rooms" not in seconds:
        told = f"all libraries take {minutes(took)}, and the program some more after them"
    elif set(seconds) <= set(of_program(seconds, stands)):
        told = f"the program takes {minutes(took)}"
    else:
        told = f"the program and the libraries of its tests take {minutes(took)}"
    return filled(f"From nothing, {told}. {when}")


def stages_table(file):
    """Returns the rows of tools/proof-times stages, with their heading."""
    rows = [it for it in lines_of(file) if it.startswith("|")]
    if len(rows) < 3:
        raise ValueError(f"{file} has no rows of stages")
    return "".join(f"{it}\n" for it in rows)


def steps_of(file):
    """Returns what each part of the gate took, in seconds."""
    lines = lines_of(file)
    steps = {at[1]: int(at[2]) for at in map(STEP.match, lines) if at}
    if not steps:
        raise ValueError(f"{file} has no times of the gate")
    return steps, any(ANEW in it for it in lines)


def gate_table(file):
    steps, anew = steps_of(file)
    rows = "".join(f"| `{name}` | {took / 60:.1f} |\n" for name, took in steps.items())
    told = "Everything was proved and tried in that run."
    if not anew:
        told = "What an earlier run had proved was kept."
    return f"| | minutes |\n|---|---|\n{rows}\n{told}\n"
