"""examples/README.md beside the program: each command of its table plays its file, and prints the line to look for."""
import glob
import os
import re
import subprocess

from tests.support import ROOT, SECONDS, Case, found_program, text_of

# file, its point, command, line of the output
ROW = re.compile(r"^\| `([^`]+)` \| [^|]+ \| `([^`|]+)` \| `([^`|]+)` \|$", re.M)
# a set that the encoder refuses for now, in the output of sim or as a comment of encode's log
REFUSED = re.compile(r"^(?:# )?\d+ (?:text|name|tags) (?:silent|held) \d+$", re.M)
FAULT = re.compile(r"^(?:# )?fault .*$", re.M)


def rows():
    """Returns the rows of the table as lines, and their parts: file, command and line."""
    text = text_of("examples/README.md").split("\n## Programs")[0]
    lines = [it for it in text.splitlines() if it.startswith("| `")]
    found = [it.groups() for it in ROW.finditer(text)]
    return lines, found


def status_of(line):
    """Returns the status of a command that prints this line: 1 for a no and for a witness."""
    return 1 if line.startswith(("no ", "lose ")) else 0


def ran(command):
    """Returns the status and the output of the command, with the built program in place of ./rdsrt."""
    environment = {**os.environ, "RDSRT": found_program()}
    call = command.replace("./rdsrt ", '"$RDSRT" ')
    done = subprocess.run(["bash", "-c", call], cwd=ROOT, stdout=subprocess.PIPE, stderr=subprocess.DEVNULL,
                          timeout=SECONDS,
                          env=environment)
    return done.returncode, done.stdout.decode()


class Examples(Case):
    def test_the_table_has_each_file_and_is_whole(self):
        lines, found = rows()
        self.check("each row of the table has a command and a line", len(found), len(lines))
        files = {os.path.basename(it) for kind in ("csv",
                                                   "log") for it in glob.glob(os.path.join(ROOT, f"examples/*.{kind}"))}
        self.check("each file has a row", {name for name, *_ in found}, files)

    def test_each_command_plays_its_file_and_prints_the_line_to_look_for(self):
        for name, command, line in rows()[1]:
            got, output = ran(command)
            is_of_file = command.startswith("./rdsrt ") and command.endswith(f" examples/{name}")
            self.check(f"{command}: its file", is_of_file, True)
            self.check(f"{command}: status", got, status_of(line))
            self.check(f"{command}: refused sets", REFUSED.findall(output), [])
            self.check(f"{command}: faults", FAULT.findall(output), [])
            self.check(f"{command}: the line to look for", output.splitlines().count(line), 1)
