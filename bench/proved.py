"""The program that is measured: one that was proved."""
import os
import sys


def program(path):
    """Where a program stands. One that `tools/build --unproved` made ends the script, since nothing that is measured of it would be told of the
    proved one."""
    if os.path.join('out', 'unproved') + os.sep in os.path.realpath(path):
        sys.exit(f'{path} was built without a proof: tools/build builds the program that is measured.')
    return os.path.abspath(path)
