"""What the scripts have in common: --help and --version, and how they end where words, input or output are no good."""
import errno
import os
import signal
import subprocess
import sys

from report_files import Fault

# What has other members than a report, or other words than a file of racer-packages.
NO_REPORT = (ValueError, KeyError, TypeError, AttributeError, IndexError)


def own_racer():
    """The script racer of this checkout, or of where `make install` has put it; nothing where there is none."""
    here = os.path.dirname(os.path.realpath(__file__))
    for place in ("racer", "bin/racer"):
        path = os.path.join(here, os.pardir, os.pardir, place)
        if os.path.isfile(path):
            return os.path.realpath(path)
    return None


def version():
    """The version of the repository, and the digest of what the program is built from; nothing where none is known."""
    own = own_racer()
    if own is None:
        return "", ""
    said = subprocess.run([own, "--version"], stdout=subprocess.PIPE, stderr=subprocess.DEVNULL, check=False).stdout
    words = said.decode("ascii", "replace").split()
    return (words[1].rstrip(","), words[3]) if len(words) == 4 else ("", "")


def no_more_output():
    """Lets nothing be written any more, so that the end of the script says nothing of it either."""
    nowhere = os.open(os.devnull, os.O_WRONLY)
    os.dup2(nowhere, sys.stdout.fileno())


def output_fault(fault):
    """Why the output failed, in words."""
    return "the reader of the output went away" if fault.errno == errno.EPIPE else f"the output failed: {fault}"


def flush():
    """Writes what is still to be written: what fails here is the output."""
    try:
        sys.stdout.flush()
    except OSError as fault:
        no_more_output()
        raise Fault(output_fault(fault)) from fault


def say(text):
    """Writes a text to standard output: what fails here is the output."""
    try:
        sys.stdout.write(text)
        sys.stdout.flush()
    except OSError as fault:
        no_more_output()
        raise Fault(output_fault(fault)) from fault


def answered(name, doc, work, words):
    """Does what the words ask; the status."""
    if words == ["--version"]:
        number, digest = version()
        say(f"{name} {number or 'of no known version'}" + (f", sources {digest}" if digest else "") + "\n")
        return 0
    if "--help" in words:
        say(doc)
        return 0
    status = work(words)
    flush()
    return status


def script(name, doc, work, words):
    """Runs a script: its name, what --help says, and what it does with its words; the status, which is 2 where words,
    input or output are no good, with one line that says so."""
    signal.signal(signal.SIGPIPE, signal.SIG_IGN)
    for stream in (sys.stdout, sys.stderr):
        stream.reconfigure(encoding="utf-8", errors="surrogateescape")
    try:
        try:
            return answered(name, doc, work, words)
        except BrokenPipeError as fault:
            no_more_output()
            raise Fault(output_fault(fault)) from fault
    except (Fault, OSError) as fault:
        told = fault
    except NO_REPORT as fault:
        told = f"no report of racer --json: {fault!r}"
    except KeyboardInterrupt:
        told = "interrupted"
    # What is still kept of the output may not fit either.
    try:
        sys.stdout.flush()
    except OSError:
        no_more_output()
    try:
        print(f"{name}: {told}", file=sys.stderr, flush=True)
    except OSError:
        os.dup2(os.open(os.devnull, os.O_WRONLY), sys.stderr.fileno())
    return 130 if told == "interrupted" else 2
