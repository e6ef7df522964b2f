"""The first part of the tutorial: its commands are run, and print what the page shows. Its second part is tested on a server by bridges/postgresql."""

from __future__ import annotations

import os
import re
import shutil
import subprocess
import tempfile
import unittest
from pathlib import Path

from .support import EXAMPLES, program

HERE = Path(__file__).resolve().parent.parent
PAGE = HERE.parents[1] / "docs/TUTORIAL.md"
END = "end of the command"


def commands() -> list[tuple[str, list[str]]]:
    """The commands up to the second part, each with the lines that it reads, and what is shown below it."""
    found: list[tuple[str, list[str]]] = []
    page = PAGE.read_text(encoding="utf-8").partition("## A deposit is lost on a server")[0]
    reads = False
    for block in re.findall(r"(?ms)^```\n(.*?)^```$", page):
        for line in block.splitlines():
            if line.startswith("$ "):
                found.append((line[2:], []))
                reads = line.endswith("<< END")
            elif reads:
                found[-1] = (f"{found[-1][0]}\n{line}", [])
                reads = line != "END"
            else:
                found[-1][1].append(line)
    return found


class Tutorial(unittest.TestCase):
    def test_its_commands_print_what_it_shows(self) -> None:
        asked = commands()
        self.assertGreater(len(asked), 15)
        with tempfile.TemporaryDirectory(prefix="desk-tutorial-") as name:
            folder = Path(name)
            programs = folder / "bin"
            programs.mkdir()
            (programs / "gprom").symlink_to(Path(program().words[0]).resolve())
            shutil.copy(EXAMPLES / "tutorial.csv", folder)
            script = "".join(f"{text}\necho '{END}'\n" for text, _ in asked)
            home = {"PATH": f"{programs}:{HERE}:{os.environ['PATH']}", "HOME": name, "XDG_CACHE_HOME": name, "XDG_STATE_HOME": name, "LC_ALL": "C.UTF-8"}
            done = subprocess.run(["sh"], input=script, cwd=folder, env=home, stdout=subprocess.PIPE, stderr=subprocess.STDOUT, text=True)
            for (text, shown), printed in zip(asked, done.stdout.split(f"{END}\n")):
                self.assertEqual(printed.splitlines(), shown, text)
            self.assertEqual((folder / "tutorial.script").read_bytes(), (EXAMPLES / "tutorial.script").read_bytes())
            if shutil.which("sha256sum"):
                subprocess.run(["sha256sum", "-c", "--status", "tutorial.dump.sha256"], cwd=folder, check=True)


if __name__ == "__main__":
    unittest.main()
