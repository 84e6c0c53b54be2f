"""One run of a program, held to a time and a memory, with its output read as it comes and not kept."""
import hashlib
import os
import resource
import signal
import subprocess
import threading

PIECE = 1 << 20
# How much of an output's front and end is kept.
KEPT = 4096
# How many times the processor seconds a run may take of wall time before it counts as one that waits for ever.
PATIENCE = 20


class Ended:
    """How a run ended: its status (below 0: the signal), processor seconds, the most megabytes that it held, and of its
    output the length, the sum, the front and the end."""

    def __init__(self, status, usage, output):
        self.status = status
        self.seconds = usage.ru_utime + usage.ru_stime
        self.megabytes = usage.ru_maxrss / 1024
        self.length, self.sum, self.front, self.end = output

    def said(self):
        """The status in words, a signal by its name."""
        return signal.Signals(-self.status).name if self.status < 0 else f"status {self.status}"


def read_out(stream):
    """The length of all that comes, its sum, and its front and end."""
    length, digest, front, end = 0, hashlib.sha256(), b"", b""
    piece = stream.read(PIECE)
    while piece:
        length += len(piece)
        digest.update(piece)
        front += piece[: KEPT - len(front)]
        end = (end + piece)[-KEPT:]
        piece = stream.read(PIECE)
    return length, digest.hexdigest(), front, end


def ended(words, seconds, megabytes):
    """Runs these words, at most so many processor seconds and megabytes of address space, and says how that ended."""

    def prepare():
        resource.setrlimit(resource.RLIMIT_CPU, (seconds, seconds + 1))
        resource.setrlimit(resource.RLIMIT_AS, (megabytes << 20, megabytes << 20))

    run = subprocess.Popen(
        words,
        stdin=subprocess.DEVNULL,
        stdout=subprocess.PIPE,
        stderr=subprocess.DEVNULL,
        preexec_fn=prepare,
    )
    watch = threading.Timer(PATIENCE * seconds, run.kill)
    watch.daemon = True
    watch.start()
    with run.stdout:
        output = read_out(run.stdout)
    _, status, usage = os.wait4(run.pid, 0)
    watch.cancel()
    run.returncode = -os.WTERMSIG(status) if os.WIFSIGNALED(status) else os.WEXITSTATUS(status)
    return Ended(run.returncode, usage, output)
