"""Commands of a document, run in a shell beside a server of their own, and what they print beside what the document shows.

The document is the only place where they stand. In blocks without a language a line that begins with `$ ` is a command, with the lines up to END
that it reads; the lines below it are what it prints.
"""
import os
import re
import subprocess
from dataclasses import dataclass, field
from pathlib import Path

from .cluster import as_unprivileged_user

MARK = 'end of the command'


@dataclass
class Command:
    """A command: its text, and the lines that the document shows below it."""
    text: str
    shown: list[str] = field(default_factory=list)


def commands_of(page: str, heading: str) -> list[Command]:
    """The commands from a heading on, up to the next one of its kind."""
    begin = page.index(heading)
    next_one = page.find('\n## ', begin + 1)
    commands: list[Command] = []
    reads_lines = False
    for block in re.findall(r'(?ms)^```\n(.*?)^```$', page[begin:next_one if next_one > 0 else None]):
        for line in block.splitlines():
            if line.startswith('$ '):
                commands.append(Command(line[2:]))
                reads_lines = line.endswith('<< END')
            elif reads_lines:
                commands[-1].text += '\n' + line
                reads_lines = line != 'END'
            else:
                commands[-1].shown.append(line)
    return commands


def play(commands: list[Command], folder: Path, path: list[str | Path], **environment: str) -> list[list[str]]:
    """What each command prints, as lines. They run in one shell, in a folder, as the user who may run a server."""
    script = folder.with_suffix('.commands')
    script.write_text(''.join(f'{command.text}\necho "{MARK}"\n' for command in commands), encoding='utf-8')
    user, prefix = as_unprivileged_user()
    if user:
        os.chown(folder, user.pw_uid, user.pw_gid)
    done = subprocess.run([*prefix, 'sh', script], cwd=folder, env={'PATH': ':'.join(map(str, [*path, os.environ['PATH']])), **environment},
                          stdin=subprocess.DEVNULL, stdout=subprocess.PIPE, stderr=subprocess.STDOUT, text=True, check=False)
    script.unlink()
    return [printed.splitlines() for printed in done.stdout.split(MARK + '\n')]


def differences(commands: list[Command], printed: list[list[str]], varying: str = '') -> list[str]:
    """What is not as in the document. What `varying` matches, such as a time, need not be equal."""
    found = []
    for command, lines in zip(commands, printed):
        ours, theirs = ([re.sub(varying, '..', line) if varying else line for line in part] for part in (lines, command.shown))
        if ours != theirs:
            found.append('\n'.join([f'$ {command.text}', *lines, 'but the page shows', *command.shown]))
    return found if len(printed) > len(commands) else [*found, f'{len(printed)} of {len(commands)} commands were run']
