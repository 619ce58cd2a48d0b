"""The program that the scripts try."""
import os
import pathlib
import subprocess

ROOT = pathlib.Path(__file__).resolve().parent.parent.parent


def found():
    """Returns the path that scripts/program prints, or None. It may prove and build the program first."""
    done = subprocess.run([ROOT / "scripts/program"], stdout=subprocess.PIPE, text=True)
    return done.stdout.strip() if done.returncode == 0 else None


def runs(path):
    """Returns whether the program prints its help."""
    try:
        return subprocess.run([path, "--help"], stdout=subprocess.DEVNULL, stderr=subprocess.DEVNULL).returncode == 0
    except OSError:
        return False


def program():
    """Returns the program's path: what ORCM names, else what scripts/program finds. Ends the script if there is none, or if it doesn't run."""
    path = os.environ.get("ORCM") or found()
    if path is None or not runs(path):
        raise SystemExit(f"{path or 'the program'} doesn't run")
    return path
