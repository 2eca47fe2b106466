# A script of many lines: each tick preceded by `retired=` of every core.
#   loads.py POLICY CORES THREADS LINES
import sys

policy, cores, threads, lines = sys.argv[1], int(sys.argv[2]), int(sys.argv[3]), int(sys.argv[4])
out = [f"sched={policy}", "sched_quantum=5", "sched_switch_cost=1", f"cores={cores}"]
for t in range(1, threads):
    out.append("spawn=0")
    if policy == "priority":
        out.append(f"prio={t},{5 + t % 11}")
turn = [f"retired={c}" for c in range(cores)] + ["tick="]
while len(out) < lines:
    out.extend(turn)
sys.stdout.write("\n".join(out[:lines]) + "\n")
