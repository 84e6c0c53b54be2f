"""The program that racer-packages and racer-witness run: one that is named, or that of the script racer beside them."""
import os
import shutil
import subprocess
import sys

from report_files import Fault
from script_main import own_racer


def built(own, unproved):
    """The path of the program that the script racer builds; where this call is interrupted, so is the build."""
    words = [own, *(["--unproved"] if unproved else []), "--program"]
    process = subprocess.Popen(words, stdin=subprocess.DEVNULL, stdout=subprocess.PIPE, start_new_session=True)
    try:
        said = process.communicate()[0]
    except BaseException:
        process.terminate()
        process.wait()
        raise
    if process.returncode:
        raise SystemExit(70)
    return os.fsdecode(said).rstrip("\n")


def program_of(name, unproved, script):
    """The program itself, as a whole path, built where it is that of the script racer; says where nothing is proved."""
    own = own_racer()
    if unproved and name is not None:
        raise Fault("--unproved is of the program beside this script, and goes without --racer")
    found = shutil.which(name) if name is not None else own
    if found is None:
        raise Fault(f"{name} is no program" if name else "there is no racer beside this script: name one by --racer")
    is_own = own is not None and os.path.samefile(found, own)
    if is_own:
        found = built(own, unproved)
    # What `make install` has put there may be unproved too.
    beside = os.path.join(os.path.dirname(os.path.realpath(__file__)), "UNPROVED")
    if unproved or (is_own and os.path.exists(beside)):
        told = "the program was compiled without its proofs"
        print(f"{script}: NOTHING IS PROVED of these answers: {told}", file=sys.stderr, flush=True)
    return os.path.abspath(found)
