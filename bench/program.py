"""The program that is measured."""
import os
import subprocess
import sys

ROOT = os.path.dirname(os.path.dirname(os.path.abspath(__file__)))
sys.path.insert(0, os.path.join(ROOT, "checks"))
sys.dont_write_bytecode = True

import release


def path():
    """Its path: that of RGW where it is set, else the carried program, or the built one, which is built where it has to be."""
    said = os.environ.get("RGW")
    if said:
        return said
    # it ends at once
    words = ["once", "--bucket", "box"]
    subprocess.run([os.path.join(ROOT, "rgw"), *words], stdin=subprocess.DEVNULL, stdout=subprocess.DEVNULL, check=True)
    return release.BUILT if release.is_current() else release.CARRIED
