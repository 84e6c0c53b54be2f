"""Runs of racer on folders that a bench makes, beside those of another program, as rows of a table."""
import argparse, hashlib, os, resource, shlex, shutil, sys, tempfile
from pathlib import Path

TOP = Path(__file__).resolve().parent.parent
PROGRAM = TOP / "crates/racer_cli/out/racer_cli"


def run_once(words, folder, limit):
    """Processor seconds on one processor (None where it was stopped), megabytes held, and what it printed."""
    read, write = os.pipe()
    child = os.fork()
    if child == 0:
        os.dup2(write, 1)
        os.dup2(os.open(os.devnull, os.O_WRONLY), 2)
        os.close(read)
        resource.setrlimit(resource.RLIMIT_CPU, (limit, limit + 1))
        os.sched_setaffinity(0, {max(os.sched_getaffinity(0))})
        os.execv(words[0], words + [str(folder)])
    os.close(write)
    with os.fdopen(read, "rb") as text:
        printed = text.read()
    _, status, usage = os.wait4(child, 0)
    seconds = usage.ru_utime + usage.ru_stime
    return (None if os.WIFSIGNALED(status) else seconds), usage.ru_maxrss / 1024, printed


def summed(run):
    """The run, with a sum in place of what it printed, which would count as memory of the next one."""
    return (*run[:2], hashlib.sha256(run[2]).digest())


def middle(runs):
    """The middle one of these runs by their seconds, those without end last."""
    return sorted(runs, key=lambda run: float("inf") if run[0] is None else run[0])[len(runs) // 2]


def told(seconds):
    return "no end" if seconds is None else "%.2f" % seconds


def is_over(seconds, other, times):
    """Whether the seconds are more than so many times the other's, or without end where the other's are not."""
    if times is None or other is None:
        return False
    return seconds is None or seconds > times * other + 0.05


def row(name, text, times, options):
    """Prints a line; whether the reports are the same and the row is not over its bound."""
    folder = Path(tempfile.mkdtemp(prefix="racer_bench_"))
    try:
        (folder / "A.java").write_text(text)
        programs = [[str(options.program)], *([shlex.split(options.beside)] if options.beside else [])]
        turns = [[summed(run_once(words, folder, options.limit)) for words in programs] for _ in range(options.turns)]
        seconds, held, printed = middle([turn[0] for turn in turns])
        line = "%-52s %7.2f %8s %8.0f" % (name, len(text) / 1e6, told(seconds), held)
        faults = []
        if options.beside:
            other, other_held, other_printed = middle([turn[1] for turn in turns])
            if seconds is not None and other is not None and printed != other_printed:
                faults.append("another report")
            if is_over(seconds, other, times):
                faults.append("over %g times" % times)
            line += " %8s %8.0f %s" % (told(other), other_held, ", ".join(faults))
    finally:
        shutil.rmtree(folder)
    print(line.rstrip(), flush=True)
    return not faults


def main(text, folders):
    """Runs on these folders: a name, the text of a file, and how many times the other's seconds are allowed (None: any)."""
    parser = argparse.ArgumentParser(description=text, formatter_class=argparse.RawDescriptionHelpFormatter)
    parser.add_argument("words", nargs="*")
    parser.add_argument("--beside")
    parser.add_argument("--limit", type=int, default=30)
    parser.add_argument("--turns", type=int, default=1)
    parser.add_argument("--program", type=Path, default=PROGRAM)
    options = parser.parse_args()
    if not options.program.exists():
        sys.exit("%s is not built; ./racer builds it" % options.program)
    head = "%-52s %7s %8s %8s" % ("folder", "MB", "seconds", "MB held")
    print(head + (" %8s %8s" % ("beside", "MB held") if options.beside else ""))
    chosen = [f for f in folders if not options.words or any(w in f[0] for w in options.words)]
    fine = [row(name, make(*arguments), times, options) for name, make, arguments, times in chosen]
    sys.exit(0 if all(fine) else 1)
