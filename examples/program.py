"""The program that the examples try."""
import os
import subprocess
import sys

LAUNCHER = f"{os.path.dirname(os.path.dirname(os.path.realpath(__file__)))}/olt"


def program():
    """Returns the path of the program that fits the sources (olt --which). Ends the example if there is none."""
    found = subprocess.run([LAUNCHER, "--which"], stdout=subprocess.PIPE, text=True, check=False)
    if found.returncode:
        sys.exit(1)
    return found.stdout.rstrip("\n")
