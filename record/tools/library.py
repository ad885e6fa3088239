"""library.py: for record/explore and record/test: the folder with libring_audit for this machine."""
import os
import platform

DIST = os.path.join(os.path.dirname(os.path.dirname(os.path.dirname(os.path.abspath(__file__)))), "dist")
# By the machine's name.
FOLDERS = {"x86_64": DIST, "aarch64": os.path.join(DIST, "aarch64-linux")}


def folder():
    """Returns $LIBRARY, else the folder in dist/ for this machine, or None if there is none."""
    return os.environ.get("LIBRARY") or FOLDERS.get(platform.machine())


def needed():
    """Returns what is to be said on a machine that has no such folder."""
    return f"it needs Linux on {' or '.join(FOLDERS)}, or libring_audit.a in $LIBRARY; this machine is {platform.machine()}"
