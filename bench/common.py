"""What the measuring scripts share: the file of ticks, a timed run of the program, and the yardstick, a hand-written program without proofs."""
import pathlib, shutil, subprocess, sys, time

top = pathlib.Path(__file__).resolve().parent.parent


def arctic():
    """The program, as the gate or ./arctic built it."""
    program = top / "crates" / "arctic_cli" / "out" / "arctic_cli"
    if not program.exists():
        sys.exit("build the program first: (cd examples && ../arctic run day.arc)")
    return program


def make_csv(path, rows):
    with open(path, "w") as f:
        f.write("time,price,size\n")
        at = 170_000_000_000_000_000
        for i in range(rows):
            f.write(f"{at + 1_000_003 * i},{100 + 7 * i % 13},{1 + i % 5}\n")


def seconds(program, folder, script, runs, words=()):
    """The lowest time of so many runs of a script; its output is left in the file output."""
    (folder / "day.arc").write_text(script)
    lowest = float("inf")
    for _ in range(runs):
        with open(folder / "output", "wb") as out:
            start = time.perf_counter()
            status = subprocess.run([program, "run", "day.arc", *words], cwd=folder, stdout=out).returncode
            lowest = min(lowest, time.perf_counter() - start)
        if status != 0:
            sys.exit(f"arctic ended with {status}")
    return lowest


def yardstick(folder):
    """The yardstick, built; none where it or its compiler is not at hand."""
    source = top.parent / "shared" / "bench" / "yardstick.rs"
    if not source.exists() or not shutil.which("rustc"):
        return None
    out = folder / "yardstick"
    subprocess.run(["rustc", "--edition", "2021", "-C", "opt-level=3", "-C", "target-cpu=x86-64-v2", "-o", out, source],
                   check=True, capture_output=True)
    return out


def phases(command, folder):
    """Seconds of each phase that the yardstick tells of itself."""
    with open(folder / "output", "wb") as out:
        ran = subprocess.run(command, cwd=folder, stdout=out, stderr=subprocess.PIPE, text=True, check=True)
    marks = [(name, float(at)) for _, name, at in (line.split() for line in ran.stderr.splitlines() if line.startswith("mark "))]
    return {name: at - before for (_, before), (name, at) in zip(marks, marks[1:])}


def instructions(program, folder, script):
    """How many instructions a run of a script takes of the processor, the system's own left out, as valgrind counts them: the same each time."""
    (folder / "day.arc").write_text(script)
    count = ["valgrind", "--tool=cachegrind", "--cache-sim=no", "--cachegrind-out-file=/dev/null"]
    with open(folder / "output", "wb") as out:
        ran = subprocess.run([*count, program, "run", "day.arc"], cwd=folder, stdout=out, stderr=subprocess.PIPE, text=True)
    if ran.returncode != 0:
        sys.exit(f"arctic ended with {ran.returncode} under valgrind")
    told = next(line for line in ran.stderr.splitlines() if "refs:" in line)
    return int(told.split("refs:")[1].split("(")[0].replace(",", ""))
