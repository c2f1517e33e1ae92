#!/usr/bin/env python3
"""Read by benchmarks/search.sh: runs a program and the solvers that are installed on each formula of a folder, one after another."""
import fnmatch
import os
import re
import resource
import shutil
import subprocess
import sys
import time

LIMIT = 60


def run(command, path):
    """Output, processor seconds and peak memory in MB; no output past the limit."""
    timed = ["/usr/bin/time", "--format", "used %U %S %M"] + command
    with open(path) as formula:
        output = subprocess.run(timed, stdin=formula, stdout=subprocess.PIPE, stderr=subprocess.STDOUT, text=True,
                                preexec_fn=lambda: resource.setrlimit(resource.RLIMIT_CPU, (LIMIT, LIMIT))).stdout
    user, system, memory = re.search(r"used ([\d.]+) ([\d.]+) (\d+)", output).groups()
    return output, float(user) + float(system), int(memory) // 1024


def found(pattern, output):
    match = re.search(pattern, output)
    return match.group(1) if match else "-"


def of_others(output, conflicts):
    word = "r" if "UNSATISFIABLE" in output else "s" if "SATISFIABLE" in output else "-"
    return word, found(conflicts, output)


def of_ours(output):
    match = re.search(r"answer (\S) (\d+)", output)
    return match.groups() if match else ("-", "-")


def solvers(program):
    kinds = [("Solver", [program], of_ours)]
    for name, command, conflicts in [
        ("minisat", ["minisat", "/dev/stdin"], r"conflicts\s*:\s*(\d+)"),
        ("cadical", ["cadical", "/dev/stdin"], r"c conflicts:\s+(\d+)"),
        ("picosat", ["picosat", "-v"], r"c (\d+) conflicts"),
    ]:
        if shutil.which(name):
            kinds.append((name, command, lambda output, conflicts=conflicts: of_others(output, conflicts)))
        else:
            print(f"{name} is not installed")
    return kinds


def main():
    folder, program, words = sys.argv[1], sys.argv[2], sys.argv[3:] or ["*"]
    kinds = solvers(os.path.abspath(program))
    names = sorted(name[:-4] for name in os.listdir(folder))
    names = [name for name in names if any(fnmatch.fnmatch(name, word) for word in words)]
    print(f"the machine's load: {os.getloadavg()[0]:.1f}; " + time.strftime("%H:%M"))
    sums = {}
    for name in names:
        path = os.path.join(folder, name + ".cnf")
        with open(path) as formula:
            formula.readline()
            _, _, variables, clauses = formula.readline().split()
        row = [f"{name} | {variables} | {clauses}"]
        answers = []
        for kind, command, read in kinds:
            output, seconds, memory = run(command, path)
            word, count = read(output)
            answers.append((kind, word, seconds, count))
            row.append(f"{word} {seconds:.2f} s, {count}, {memory} MB")
        if answers[0][1] == "r":
            output, seconds, _ = run([kinds[0][1][0], "check"], path)
            row.append(f"check {max(seconds - answers[0][2], 0):.2f} s" if of_ours(output)[0] == "r" else "check failed")
        print("| " + " | ".join(row) + " |", flush=True)
        words_told = {word for _, word, _, _ in answers} - {"-"}
        family = name.split("-")[0] + (", refuted" if words_told == {"r"} else ", satisfied" if words_told == {"s"} else ", DIFFERENT")
        for kind, word, seconds, count in answers:
            total = sums.setdefault(family, {}).setdefault(kind, [0, 0])
            total[0] += seconds
            total[1] += int(count) if count.isdigit() else 0
    for family, totals in sums.items():
        print(f"| {family} | " + " | ".join(f"{kind} {total[0]:.2f} s, {total[1]}" for kind, total in totals.items()) + " |")
    print(f"the machine's load: {os.getloadavg()[0]:.1f}; " + time.strftime("%H:%M"))


main()
