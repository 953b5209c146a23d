"""What comes of the help for a shell: the completions for bash, zsh and fish."""
import os
import shutil
import subprocess
import sys

import stage

CONTRIB = os.path.join(stage.TOP, 'contrib')
COMMANDS = ('answer', 'check', 'draw', 'chart', 'punch', 'spell', 'fit', 'rows', 'upgrade', 'init', 'create', 'check-config', 'serve', 'run', 'stop',
            'status', 'rehearse', 'import', 'survey', 'help')
ASK = r"""
source ./completions
COMP_WORDS=("$@"); COMP_CWORD=$(($# - 1)); COMPREPLY=()
_circuitd 2> complaints
grep -v 'not currently executing completion function' complaints
echo "${COMPREPLY[*]}"
"""


def completions_for(at, shell):
    """What the script writes for a shell of the program."""
    ran = subprocess.run([sys.executable, os.path.join(CONTRIB, 'completions.py'), shell, at.program], stdout=subprocess.PIPE, check=True)
    return ran.stdout


def completions(at):
    """Commands, options of a command, and the values that an option takes are completed; where a file is wanted nothing is."""
    if shutil.which('bash') is None:
        raise stage.Skipped('there is no bash')
    at.write('completions', completions_for(at, 'bash'))
    for line, wanted in (
        ('ch', 'check chart check-config'),
        ('run --', '--create --layout --quiet --verbose --times --help'),
        ('run --layout ', '1 2'),
        ('punch --most 4', '4096'),
        ('serve --turns ', ''),
        ('help sto', 'stop'),
        ('check cod', ''),
        ('stop --', '--help'),
        ('init alton --ci', '--circuit'),
        ('init --all --new', '--new-key'),
    ):
        ran = subprocess.run(['bash', '-c', ASK, 'bash', 'circuitd', *line.split(' ')], cwd=at.folder, stdout=subprocess.PIPE, check=True)
        stage.wants(ran.stdout.decode() == wanted + '\n', f'"circuitd {line}" is completed to "{wanted}", and not to {ran.stdout}')


def for_other_shells(at):
    """The scripts for zsh and fish name each command and each option, once. Where the shell is there, it reads its script without a complaint."""
    for shell, words in (('zsh', ['zsh', '-n']), ('fish', ['fish', '--no-execute'])):
        text = completions_for(at, shell).decode()
        at.write(f'completions.{shell}', text.encode())
        for wanted in (*COMMANDS, 'new-key', 'layout'):
            stage.wants(wanted in text, f'the script for {shell} has no {wanted}')
        if shutil.which(shell):
            ran = subprocess.run([*words, at.path(f'completions.{shell}')], stdout=subprocess.PIPE, stderr=subprocess.STDOUT, check=False)
            stage.wants((ran.returncode, ran.stdout) == (0, b''), f'{shell} says {ran}')


PLAYS = [completions, for_other_shells]
