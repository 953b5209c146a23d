"""Programs and tests without a proof.

Without a proof `rt try` compiles a program with tests for broken memory in it, runs it and throws it away. Here it runs over a copy of the
toolchain's folder in which the compiler keeps what it is handed. That is then compiled and linked as the gate does it.
"""
import os
import shutil
import subprocess
import sys
import tempfile

TOP = os.path.dirname(os.path.dirname(os.path.abspath(__file__)))
OUT = os.path.join(TOP, 'out', 'unproved')
# What `rt try` asks of the compiler, and what the gate asks in place of it.
TRIED = ['-O0', '-fsanitize=address']
BUILT = ['-O3', '-Xclang', '-fmerge-functions', '-mllvm', '-mergefunc-use-aliases']
# What is asked for tests, which are compiled more often than they are run for long.
QUICKLY = ['-O1']
TARGET = 'x86_64-unknown-linux-gnu'
# In place of the compiler: of the module that is compiled with tests for broken memory, which is the program's, it keeps a copy and how it
# was called, and then gives up; all else it hands on.
KEEPER = """#!/bin/sh
case " $* " in
*' -fsanitize=address '*)
    cp module.bc '{kept}/module.bc'
    printf '%s\\n' "$@" > '{kept}/words'
    exit 1 ;;
esac
exec '{own}/toolchain/bin/clang' "$@"
"""
# In place of the checker, which `rt try` has look through all sources only to tell beforehand which names a check would refuse. It takes as long
# as all else.
NO_HINT = """#!/bin/sh
exit 0
"""


def kit():
    """The toolchain's folder, which has the page that `rt doc` names."""
    page = subprocess.run(['rt', 'doc'], stdout=subprocess.PIPE, encoding='utf-8', check=True).stdout
    return os.path.dirname(page.strip())


def link_all(old, new, but=()):
    """A folder with links to all that another one holds, but for these names."""
    os.makedirs(new)
    for name in os.listdir(old):
        if name not in but:
            os.symlink(os.path.join(old, name), os.path.join(new, name))


def write_script(path, text):
    with open(path, 'w', encoding='utf-8') as file:
        file.write(text)
    os.chmod(path, 0o755)


def copy_kit(old, new, compiler=None):
    """A toolchain's folder that tries without a hint, and with this compiler, where one is given."""
    link_all(old, new, ('bin', 'toolchain'))
    link_all(os.path.join(old, 'bin'), os.path.join(new, 'bin'), ('rt', 'rtlib.py', 'rattle'))
    for name in ('rt', 'rtlib.py'):
        # These find their folder by where they lie.
        shutil.copy(os.path.join(old, 'bin', name), os.path.join(new, 'bin', name))
    write_script(os.path.join(new, 'bin', 'rattle'), NO_HINT)
    link_all(os.path.join(old, 'toolchain'), os.path.join(new, 'toolchain'), ('bin',))
    link_all(os.path.join(old, 'toolchain', 'bin'), os.path.join(new, 'toolchain', 'bin'), ('clang',) if compiler else ())
    if compiler:
        write_script(os.path.join(new, 'toolchain', 'bin', 'clang'), compiler)


def try_in(folder, words):
    """Has `rt try` run the crate in a folder, with looks for broken memory: its status."""
    with tempfile.TemporaryDirectory(prefix='unproved-') as room:
        copy = os.path.join(room, 'kit')
        copy_kit(kit(), copy)
        return subprocess.run([os.path.join(copy, 'bin', 'rt'), 'try', *words], cwd=folder, stderr=subprocess.STDOUT, check=False).returncode


def keep_module(copy, kept, folder, words):
    """Has `rt try` make the module of the crate in a folder, which is kept. What it says is told where it makes none."""
    ran = subprocess.run([os.path.join(copy, 'bin', 'rt'), 'try', *words], cwd=folder, stdin=subprocess.DEVNULL,
                         stdout=subprocess.PIPE, stderr=subprocess.STDOUT, encoding='utf-8', errors='replace', check=False)
    if not os.path.exists(os.path.join(kept, 'module.bc')):
        sys.exit(ran.stdout)


def compile_module(own, kept, made, how):
    """Compiles and links what was kept."""
    with open(os.path.join(kept, 'words'), encoding='utf-8') as file:
        words = file.read().splitlines()
    toolchain = os.path.join(own, 'toolchain')
    words = [f'--sysroot={toolchain}' if word.startswith('--sysroot=') else word for word in words if word not in TRIED]
    subprocess.run([os.path.join(toolchain, 'bin', 'clang'), *words, *how], cwd=kept, check=True)
    libraries = [os.path.join(own, 'c', name) for name in ('libos_c.a', 'liblibc_c.a')]
    os.makedirs(os.path.dirname(made), exist_ok=True)
    linked = subprocess.run([os.path.join(own, 'bin', 'rattle-link'), '--target', TARGET, '--toolchain', toolchain, '-o', made,
                             os.path.join(kept, 'module.o'), *libraries], stdout=subprocess.PIPE, stderr=subprocess.STDOUT, encoding='utf-8', check=False)
    if linked.returncode:
        sys.exit(linked.stdout)
    os.chmod(made, 0o755)


def build(folder, words, name, how=BUILT):
    """Builds the program of the crate in a folder, or with `--test` among the words its tests, without a proof, and gives its place."""
    made = os.path.join(OUT, name)
    own = kit()
    with tempfile.TemporaryDirectory(prefix='unproved-') as room:
        kept, copy = os.path.join(room, 'kept'), os.path.join(room, 'kit')
        os.mkdir(kept)
        copy_kit(own, copy, KEEPER.format(kept=kept, own=own))
        keep_module(copy, kept, folder, words)
        compile_module(own, kept, made, how)
    return made
