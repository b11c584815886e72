#!/usr/bin/env bash
# Runs the gate's proofs from nothing, or with the words given after it (`bench/gate.sh NAME ..` for crates alone, which takes what was kept), and prints
# the processor minutes of each crate: its proof, that of its tests, its must-fail edits. What the sampling misses stands in the last line.
set -eu
cd "$(dirname "$0")/.."
exec python3 - "$@" <<'P'
import collections, os, resource, subprocess, sys, tempfile, time

ticks = os.sysconf("SC_CLK_TCK")
log = open(os.path.join(tempfile.gettempdir(), "quiv-gate.log"), "w")
words = sys.argv[1:] or ["--anew"]
start = time.time()
gate = subprocess.Popen(["rt", "ci", *words], stdout=log, stderr=subprocess.STDOUT, stdin=subprocess.DEVNULL)
seen = {}  # of each process of the prover: its crate, its kind, its seconds so far


def parents():
    """The parent of each process that there is."""
    told = {}
    for pid in filter(str.isdigit, os.listdir("/proc")):
        try:
            with open(f"/proc/{pid}/stat") as it:
                told[int(pid)] = int(it.read().rsplit(")", 1)[1].split()[1])
        except OSError:
            pass
    return told


def is_ours(pid, above):
    while pid > 1:
        if pid == gate.pid:
            return True
        pid = above.get(pid, 0)
    return False


def look():
    above = parents()
    for pid in above:
        try:
            with open(f"/proc/{pid}/cmdline") as it:
                args = it.read().split("\0")
            if not args[0].endswith("/rattle") or "--crate-name" not in args or not is_ours(pid, above):
                continue
            with open(f"/proc/{pid}/stat") as it:
                fields = it.read().rsplit(")", 1)[1].split()
            room = os.readlink(f"/proc/{pid}/cwd")
        except OSError:
            continue
        kind = "edits" if "/rt-edit-" in room else "tests" if "--test" in args else "proof"
        seen[pid, fields[19]] = (args[args.index("--crate-name") + 1], kind, sum(map(int, fields[11:15])) / ticks)


while gate.poll() is None:
    look()
    time.sleep(0.3)

table = collections.defaultdict(collections.Counter)
for crate, kind, seconds in seen.values():
    table[crate][kind] += seconds
kinds = ("proof", "tests", "edits")
print(f"{'crate':20}{''.join(f'{it:>8}' for it in kinds)}{'all':>8}")
for crate, row in sorted(table.items(), key=lambda it: -sum(it[1].values())):
    print(f"{crate:20}{''.join(f'{row[it] / 60:8.1f}' for it in kinds)}{sum(row.values()) / 60:8.1f}")
whole = collections.Counter()
for row in table.values():
    whole.update(row)
print(f"{'all':20}{''.join(f'{whole[it] / 60:8.1f}' for it in kinds)}{sum(whole.values()) / 60:8.1f}")
used = resource.getrusage(resource.RUSAGE_CHILDREN)
print(f"processor minutes of the whole run: {(used.ru_utime + used.ru_stime) / 60:.1f}, in {(time.time() - start) / 60:.1f} minutes on {os.cpu_count()} processors")
print(subprocess.run(["tail", "-n", "1", log.name], capture_output=True, text=True).stdout.strip())
sys.exit(gate.returncode)
P
