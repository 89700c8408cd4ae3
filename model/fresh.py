"""python3 model/fresh.py SEED COUNT draws COUNT new runs for heaprun and
20 * COUNT new cases for heapprobe, gives them to the built programs and
compares what they print with the model. tests/fresh starts it.
"""

import random
import subprocess
import sys

import draw
import lines
import probe

HEAPRUN, HEAPPROBE = "heaprun", "heapprobe"


def drawn(seed, count):
    """The two inputs. Now and then a run ends the input without a byte 10."""
    rng = random.Random(f"fresh {seed}")
    runs = [draw.noise(rng) for _ in range(5)] + [b"C", b"A 0 0", b"W 1"]
    cases = []
    for _ in range(count):
        runs += draw.small_run(rng)
        cases += draw.twenty_cases(rng)
    end = draw.one_of(rng, [b"", b"\n"])
    return b"\n".join(runs) + end, b"\n".join(cases) + b"\n"


def first_difference(name, data, wanted, got):
    """What to say of the first line that differs, or None."""
    if got == wanted:
        return None
    inputs = lines.lines_of(data)
    wanted_lines, got_lines = wanted.split(b"\n"), got.split(b"\n")
    for i, (want, have) in enumerate(zip(wanted_lines, got_lines)):
        if want != have:
            line = inputs[i] if i < len(inputs) else b"(end of input)"
            return (f"{name} differs at line {i + 1}\n  input:   {line!r}\n"
                    f"  model:   {want.decode()}\n  program: {have.decode(errors='replace')}")
    at = min(len(wanted_lines), len(got_lines))
    return f"{name} prints {len(got_lines) - 1} lines, the model {len(wanted_lines) - 1}: from line {at}"


def compared(program, model, data):
    """Runs a program over the data; what to say of a difference, or None."""
    try:
        done = subprocess.run(["./run", program], input=data, stdout=subprocess.PIPE, timeout=300)
    except subprocess.TimeoutExpired:
        return f"{program} does not end within 300 seconds"
    difference = first_difference(program, data, model(data), done.stdout)
    if difference is None and done.returncode != 0:
        return f"{program} prints what the model prints, but ends with status {done.returncode}"
    return difference


def main(seed, count):
    runs, cases = drawn(seed, count)
    found = [difference for difference in (compared(HEAPRUN, lines.heaprun, runs),
                                           compared(HEAPPROBE, probe.heapprobe, cases))
             if difference]
    if found:
        print(f"fresh: seed {seed}: a difference between the programs and the model")
        print("\n".join(found))
        return 1
    print(f"fresh: seed {seed}: {count} runs ({len(lines.lines_of(runs))} lines) and "
          f"{20 * count} cases, no difference between the programs and the model")
    return 0


if __name__ == "__main__":
    sys.exit(main(sys.argv[1], int(sys.argv[2])))
