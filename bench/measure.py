"""What the timing scripts share: runs of programs, and figures that later runs compare with."""

import os
import pathlib
import subprocess
import sys

TOP = pathlib.Path(__file__).resolve().parent.parent
ROUNDS = int(os.environ.get("ROUNDS", "5"))


def fail(why):
    sys.exit(f"{pathlib.Path(sys.argv[0]).name}: {why}")


def proved():
    """The proved program, or that which TIMBER names."""
    path = pathlib.Path(os.environ.get("TIMBER", TOP / "crates/timber/out/timber"))
    if not path.is_file():
        fail(f"no proved program at {path}; make it by `rt run` in crates/timber, or name it by TIMBER")
    return path


def built(name):
    """A plain program of bench/, built now."""
    folder = TOP / "bench" / name
    words = ["cargo", "build", "--quiet", "--release", "--offline", "--manifest-path", folder / "Cargo.toml"]
    subprocess.run([*words, "--target-dir", folder / "target"], check=True)
    return folder / "target/release" / name


def run(words, script, out):
    """One run over the script. Gives its status, processor seconds and peak bytes."""
    with open(script, "rb") as source, open(out, "wb") as sink:
        child = subprocess.Popen(words, stdin=source, stdout=sink)
        _, status, usage = os.wait4(child.pid, 0)
        child.returncode = os.waitstatus_to_exitcode(status)
    return child.returncode, usage.ru_utime + usage.ru_stime, usage.ru_maxrss * 1024


def machine():
    model = next(line for line in open("/proc/cpuinfo") if line.startswith("model name"))
    date = subprocess.run(["date", "+%F"], capture_output=True, text=True, check=True).stdout.strip()
    load = open("/proc/loadavg").read().split()[0]
    return f"machine {model.split(': ')[1].strip()}, {os.cpu_count()} cores, load {load}; date {date}"


def keep(name, value):
    """Adds a figure to the file that FIGURES names."""
    if "FIGURES" in os.environ:
        with open(os.environ["FIGURES"], "a") as out:
            print(f"{name}\t{value:.4g}", file=out)
