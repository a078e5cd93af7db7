#!/usr/bin/env bash
# What the gate costs: runs `rt ci` from nothing on a clone of the last commit, and prints for each crate the processor time and the
# most memory of its proof, of that of its tests, and of its must-fail edits. With names, `bench/gate.sh NAME..`, for these crates and
# those below them alone, with a kit whose `rt ci` takes names. It looks at the processes of the run twice a second, so it says a little
# less than they took. It needs Linux, and as long as the gate from nothing.
set -eu
root=$(dirname -- "$(dirname -- "$(readlink -f -- "${BASH_SOURCE[0]}")")")
room=$(mktemp -d "${TMPDIR:-/tmp}/tcc-gate.XXXXXX")
trap 'rm -rf -- "$room"' EXIT
git clone --quiet -- "$root" "$room/clone"
cd -- "$room/clone"

python3 - "$@" <<'END'
import collections, os, subprocess, sys, time

TICK = os.sysconf("SC_CLK_TCK")


def text(path):
    try:
        with open(path, errors="replace") as it:
            return it.read()
    except OSError:
        return ""


def processes():
    """The processes of this machine: of each its parent, and its time in ticks with that of the children it waited for."""
    found = {}
    for pid in filter(str.isdigit, os.listdir("/proc")):
        fields = text(f"/proc/{pid}/stat").rpartition(")")[2].split()
        if fields:
            found[int(pid)] = int(fields[1]), sum(map(int, fields[11:15]))
    return found


def work_of(pid):
    """The crate and the kind of work of a process, if it is the prover's."""
    words = text(f"/proc/{pid}/cmdline").split("\0")
    if not words[0].endswith("/rattle") or "--crate-name" not in words:
        return None
    try:
        at = os.readlink(f"/proc/{pid}/cwd")
    except OSError:
        return None
    kind = "edits" if "/rt-edit-" in at else "tests" if "--test" in words else "proof"
    return words[words.index("--crate-name") + 1], kind


def memory(pid):
    """The memory of a process in kB, of what it shares with others its share."""
    lines = [it.split() for it in text(f"/proc/{pid}/smaps_rollup").splitlines()]
    return next((int(it[1]) for it in lines if it[0] == "Pss:"), 0)


def top_of(pid, all, run):
    """The uppermost process of the prover from this one up to the run, if there is one and the run is above it."""
    above = []
    while pid in all and pid != run:
        above.append(pid)
        pid = all[pid][0]
    if pid != run:
        return None
    for it in above:
        if it not in work and work_of(it):
            work[it] = work_of(it)
    return next((it for it in reversed(above) if it in work), None)


# some kits keep what has passed, and have a flag for a run from nothing; the others always begin there
said = subprocess.run(["rt", "help"], capture_output=True, text=True)
anew = ["--anew"] if "--anew" in said.stdout + said.stderr else []
work, ticks, most = {}, collections.Counter(), collections.Counter()
with open("../log", "w") as log:
    run = subprocess.Popen(["rt", "ci", *anew, *sys.argv[1:]], stdout=log, stderr=subprocess.STDOUT)
    while run.poll() is None:
        all, now, held = processes(), collections.Counter(), collections.Counter()
        for pid in all:
            top = top_of(pid, all, run.pid)
            if top:
                now[top] += all[pid][1]
                held[top] += memory(pid)
        for top in now:
            ticks[top] = max(ticks[top], now[top])
            most[work[top]] = max(most[work[top]], held[top])
        time.sleep(0.5)

seconds = collections.Counter()
for top in ticks:
    seconds[work[top]] += ticks[top] / TICK
kinds = ["proof", "tests", "edits"]
print("| Crate |" + "".join(f" {it}, s | {it}, MB |" for it in kinds))
print("|---|" + "---:|---:|" * 3)
for crate in dict.fromkeys(crate for crate, _ in work.values() if (crate, "proof") in seconds):
    print(f"| `{crate}` |" + "".join(f" {seconds[crate, it]:.0f} | {most[crate, it] / 1000:.0f} |" for it in kinds))
print("| all |" + "".join(f" {sum(s for (_, kind), s in seconds.items() if kind == it):.0f} | |" for it in kinds))
print(text("../log").strip().splitlines()[-1])
sys.exit(run.returncode)
END
