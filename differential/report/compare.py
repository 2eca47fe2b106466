# Random scripts, valid and broken, given to two programs whose outputs must be equal byte by byte.
#   compare.py PROGRAM PROGRAM SCRIPTS SEED
import random
import subprocess
import sys

WORDS = ["off", "none", "pinned", "fifo", "fcfs", "rr", "round-robin", "roundrobin", "round_robin", "priority", "prio"]
CALLS = ["spawn", "exit", "join", "retired", "yield", "prio", "force", "tick", "close"]


def cased(r, word):
    return "".join(c.upper() if r.random() < 0.2 else c for c in word)


def number(r, n):
    text = str(n)
    if r.random() < 0.03:
        text = "0" * r.randrange(1, 12) + text
    if r.random() < 0.03:
        text = "+" + text
    if r.random() < 0.01:
        text = r.choice(["", "-1", "4294967296", "4294967295", "x", "1 2", "++1", "99999999999999999999"])
    return text


def heading(r):
    lines = []
    if r.random() < 0.9:
        lines.append("sched=" + cased(r, r.choice(WORDS)))
    if r.random() < 0.8:
        lines.append("sched_quantum=" + number(r, r.choice([1, 2, 3, 5, 50, 1_000_000])))
    if r.random() < 0.8:
        lines.append("sched_switch_cost=" + number(r, r.choice([0, 0, 1, 2, 10_000])))
    lines.append("cores=" + number(r, r.randrange(0, 9)))
    return lines


def call(r, cores, threads):
    key = r.choices(CALLS, [8, 2, 4, 25, 5, 4, 4, 30, 0.05])[0]
    c = number(r, r.randrange(0, cores + (r.random() < 0.05)))
    t = number(r, r.randrange(0, threads + (r.random() < 0.1)))
    if key == "tick":
        return "tick="
    if key == "spawn":
        return "spawn=" + (t if r.random() < 0.8 else "")
    if key == "join":
        return f"join={c},{t}"
    if key == "prio":
        return f"prio={t},{number(r, r.choice([0, 1, 5, 10, 11, 20, 300]))}"
    if key == "force":
        return f"force={c},{t if r.random() < 0.5 else ''}"
    return f"{key}={c}"


def broken(r, line):
    kind = r.randrange(9)
    if kind == 0:
        return line + ",1"
    if kind == 1:
        return line.replace("=", "", 1)
    if kind == 2:
        return line + "\t \r"
    if kind == 3:
        return line.replace("=", "= \x0b", 1)
    if kind == 4:
        return line + " " * (r.choice([255, 256, 257, 300]) - len(line))
    if kind == 5:
        at = r.randrange(len(line) + 1)
        return line[:at] + chr(r.randrange(128, 256)) + line[at:]
    if kind == 6:
        return ""
    if kind == 7:
        return r.choice(["sched=rr", "cores=2", "tick=1", "join=0", "force=0", "exit=0,0", "sched_quantum=0", "cores=9", "=", "sched=rrr", "sched_switch_cost=10001"])
    if not line:
        return "="
    at = r.randrange(len(line))
    return line[:at] + line[at + 1:]


def script(r):
    lines = heading(r)
    cores = r.randrange(1, 9)
    threads = r.choice([2, 4, 20, 200])
    for _ in range(r.choice([0, 3, 30, 300])):
        lines.append(call(r, cores, threads))
    if r.random() < 0.05:
        lines = lines[:-1] + ["spawn=0"] * 300 + lines[-1:]
    if r.random() < 0.5:
        for _ in range(r.randrange(1, 3)):
            at = r.randrange(len(lines))
            lines[at] = broken(r, lines[at])
    if r.random() < 0.1:
        r.shuffle(lines)
    if r.random() < 0.05:
        lines = lines[: r.randrange(len(lines) + 1)]
    text = "".join(line + "\n" for line in lines).encode("latin-1")
    if r.random() < 0.1:
        text = text[: r.randrange(len(text) + 1)]
    return text


def main():
    first, second = sys.argv[1:3]
    count, seed = int(sys.argv[3]), int(sys.argv[4])
    seen = {}
    for k in range(count):
        text = script(random.Random(seed + k))
        a, b = (subprocess.run(p.split(), input=text, stdout=subprocess.PIPE).stdout for p in (first, second))
        if a != b:
            sys.stdout.flush()
            sys.stderr.write(f"the script of seed {seed + k} differs\n")
            sys.stderr.buffer.write(text)
            sys.exit(1)
        for line in a.splitlines():
            key = line.split(b"=")[0]
            if key in (b"refused", b"joined"):
                key = key + b"=" + line.rsplit(b",")[-1]
            seen[key] = seen.get(key, 0) + 1
    print(f"{count} scripts: equal")
    print(", ".join(f"{k.decode()}: {seen[k]}" for k in sorted(seen)))


main()
