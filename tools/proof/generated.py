"""What the check writes of one function, with `rt check --generated FOLDER --start FUNCTION`, in seconds and with no proof of the crate."""

import subprocess
import sys
from pathlib import Path


def path_in_crate(function):
    """`dot/cmplx_dot_partial4`, as the folders of proofs/ have it, by the name that rt takes."""
    return function.strip("/").replace("/", "::")


def generate(root, crate, function, folder):
    """Has the files of the function written below the folder, and returns what was said."""
    if not (root / "crates" / crate).is_dir():
        sys.exit(f"there is no crate {crate} in {root / 'crates'}")
    command = ["rt", "check", "--generated", str(folder), "--start", path_in_crate(function)]
    try:
        run = subprocess.run(command, cwd=root / "crates" / crate, capture_output=True, text=True)
    except FileNotFoundError:
        sys.exit("the command rt is not found: install the Rattle kit")
    return run.stdout + run.stderr


def text_of(folder, function, name):
    """A file of the function below the folder, or nothing."""
    files = sorted(Path(folder).glob(f"*-proofs/{function.strip('/')}/{name}"))
    return files[0].read_text() if files else None
