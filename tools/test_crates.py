"""The crates of tests, which are compiled without a proof.

The toolchain's gate proves each file of the repository whose name ends in .rt, and a test shows nothing by being proved. So the sources of the tests
end in .rt.txt. Here they become crates of a repository of their own, in a temporary folder, beside copies of the crates that they test.
"""
import contextlib
import os
import shutil
import subprocess
import tempfile

import unproved

SOURCES = os.path.join(unproved.TOP, 'tests', 'crates')
ENDING = '.txt'


def folders():
    """The crates of tests, and what they share."""
    return sorted(name for name in os.listdir(SOURCES) if os.path.isdir(os.path.join(SOURCES, name)))


def names():
    """The crates of tests."""
    return [name for name in folders() if name.endswith('_tests')]


def copy_sources(crates, name, new, ending=''):
    """Copies what a crate is compiled from; each file loses this ending."""
    old = os.path.join(crates, name, 'src')
    for folder, _, files in os.walk(old):
        place = os.path.join(new, name, 'src', os.path.relpath(folder, old))
        os.makedirs(place, exist_ok=True)
        for file in files:
            shutil.copy(os.path.join(folder, file), os.path.join(place, file.removesuffix(ending)))


@contextlib.contextmanager
def laid_out():
    """A repository that has the crates of tests, too, and goes afterwards: the folder of its crates."""
    with tempfile.TemporaryDirectory(prefix='tests-') as room:
        shutil.copy(os.path.join(unproved.TOP, 'HANDLES'), room)
        new, old = os.path.join(room, 'crates'), os.path.join(unproved.TOP, 'crates')
        for name in os.listdir(old):
            copy_sources(old, name, new)
        for name in folders():
            copy_sources(SOURCES, name, new, ENDING)
        with open(os.path.join(room, 'crates.txt'), 'w', encoding='utf-8') as lines:
            for listed in (os.path.join(unproved.TOP, 'crates.txt'), os.path.join(SOURCES, 'libraries.txt')):
                with open(listed, encoding='utf-8') as own:
                    lines.write(own.read())
        yield new
