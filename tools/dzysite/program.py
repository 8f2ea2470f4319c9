"""The cleaner program: where it is, and its output on two files."""
import os
import shutil
import subprocess
import tempfile

from .kinds import FILES, Faults

TOOLS = os.path.dirname(os.path.dirname(os.path.realpath(__file__)))
BUILT = os.path.join(os.path.dirname(TOOLS), "target", "bin", "cleaner")
RUNNER = os.path.join(TOOLS, "x86.sh")


def find_program(named=None):
    """The path of the program: the one named, else the one built beside the tool, else the one on the PATH."""
    if named is not None:
        if not os.access(named, os.X_OK) or not os.path.isfile(named):
            raise Faults([f"{named}: expected the program cleaner, found no program there"])
        return os.path.abspath(named)
    path = BUILT if os.access(BUILT, os.X_OK) else shutil.which("cleaner")
    if path is None:
        raise Faults([f"expected the program cleaner, found neither {BUILT} nor 'cleaner' on the PATH; 'make run' builds it, or name it with --program PATH"])
    return os.path.abspath(path)


def run_program(program, rules, bundle):
    """What the program prints in a folder of its own with these two files."""
    with tempfile.TemporaryDirectory() as folder:
        for name, data in zip(FILES, (rules, bundle)):
            with open(os.path.join(folder, name), "wb") as file:
                file.write(data)
        done = subprocess.run([RUNNER, "run", program], cwd=folder, stdin=subprocess.DEVNULL, stdout=subprocess.PIPE, check=False)
    if done.returncode != 0:
        raise Faults([f"{program}: expected status 0, found {done.returncode}: the program did not run to its end"])
    return done.stdout.decode("ascii", "replace")
