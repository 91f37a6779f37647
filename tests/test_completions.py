"""The completions for bash, zsh and fish beside the help of the program: they offer the same commands and options."""
import os
import re
import shutil
import subprocess
import tempfile

from tests import package
from tests.needed import needs
from tests.support import PROGRAM, SECONDS, Case, path, text_of

FOLDER = path("tools/completions")
FILES = {"bash": "rdsrt.bash", "zsh": "_rdsrt", "fish": "rdsrt.fish"}
# prints what bash would offer for the words
BASH = """source "$1"; shift; COMP_WORDS=(rdsrt "$@"); COMP_CWORD=$#; _rdsrt; printf '%s\\n' "${COMPREPLY[@]}" """
# zsh completes in a terminal alone. Here the functions that its file calls print the commands and options they get.
ZSH = """compdef() { : }
_describe() { local -a its; its=(${(P)2}); print -l -- ${its%%:*} }
_arguments() {
    local it; for it in "$@"; do [[ $it = (#b)(|\\(*\\))(-##[-a-zA-Z]##)\\[* ]] && print -- $match[2]; done
    [[ $1 = -C ]] && state=$ASKED
    return 1
}
setopt extendedglob; ASKED=$2; words=($@[3,-1]); source $1; true"""


def lines(words, folder=None):
    """Returns the lines that these words print in a folder."""
    done = subprocess.run(words, stdout=subprocess.PIPE, text=True, check=True, timeout=SECONDS,
                          stdin=subprocess.DEVNULL, cwd=folder)
    return {*done.stdout.split("\n")} - {""}


def summaries():
    """Returns the line of help of each command."""
    section = help_of([]).split("Commands:\n")[1].split("\n\n")[0]
    return dict(it.split(None, 1) for it in section.splitlines())


def help_of(command):
    """Returns the help of a command."""
    done = subprocess.run([PROGRAM, *command, "--help"], stdout=subprocess.PIPE, text=True, check=True, timeout=SECONDS)
    return done.stdout


def offered(command):
    """Returns the commands and options in the help of the program, or of a command."""
    if command == ["help"]:
        return {*summaries()}
    options = re.findall(r"^ +(?:(-\w), )?(--\w[\w-]*)", help_of(command).split("Options:\n")[1], re.M)
    return {it for both in options for it in both if it} | ({*summaries()} if not command else set())


def by_bash(command):
    """Returns the commands and options that bash offers."""
    words = ["bash", "-c", BASH, "bash", os.path.join(FOLDER, FILES["bash"]), *command]
    return lines([*words, ""]) | lines([*words, "-"])


def by_zsh(command):
    """Returns the commands and options that zsh offers."""
    words = ["zsh", "-f", "-c", ZSH, "zsh", os.path.join(FOLDER, FILES["zsh"]), "option" if command else "command"]
    return lines([*words, *command]) - (set() if not command else {"-V", "--version"})


def by_fish(command, files=()):
    """Returns the commands and options that fish offers, and the files of a folder that has these."""
    found, folder = set(), tempfile.mkdtemp()
    for name in files:
        open(os.path.join(folder, name), "w").close()
    for begun in ("", "-", "--"):
        call = f"source {os.path.join(FOLDER, FILES['fish'])}; complete -C '{' '.join(['rdsrt', *command, begun])}'"
        found |= {it.split("\t")[0] for it in lines(["fish", "--no-config", "-c", call], folder)}
    shutil.rmtree(folder)
    return found


class Completions(Case):
    def compare(self, shell, by, drop="$^", not_of_help=()):
        """Compares the offers of the shell with the help, except for the options that match `drop`."""
        for command in [[], *([it] for it in summaries())]:
            wanted = {it for it in offered(command) if not re.fullmatch(drop, it)}
            got = by(command) - {*(not_of_help if command == ["help"] else ())}
            self.check(f"{shell} after rdsrt {' '.join(command)}", got, wanted)

    def describe(self, shell):
        """Looks for the line of help of each command in the file of the shell."""
        text = text_of(f"tools/completions/{FILES[shell]}")
        for command, summary in summaries().items():
            self.check(f"{shell}: what {command} does", summary in text, True)

    def test_bash_offers_the_commands_and_the_long_options(self):
        self.compare("bash", by_bash, drop=r"-\w")

    @needs("zsh")
    def test_zsh_offers_the_commands_and_options(self):
        self.compare("zsh", by_zsh, not_of_help=("-h", "--help"))

    @needs("fish")
    def test_fish_offers_the_commands_and_options(self):
        self.compare("fish", by_fish)

    @needs("fish")
    def test_each_command_takes_a_file(self):
        script = os.path.join(FOLDER, FILES["bash"])
        for command in {*summaries()} - {"help"}:
            # bash offers files by itself where its function offers nothing
            self.check(f"bash after {command}", lines(["bash", "-c", BASH, "bash", script, command, ""]), set())
            self.check(f"fish after {command}", "it.log" in by_fish([command], ["it.log"]), True)
            zsh = re.search(rf"^ +{command}\) _arguments .*\$file ;;$", text_of("tools/completions/_rdsrt"), re.M)
            self.check(f"zsh after {command}", bool(zsh), True)

    @needs("fish")
    def test_the_programs_around_it_have_the_options_of_their_help(self):
        """zsh reads them itself."""
        paths = {**os.environ, "PATH": package.installed_programs() + os.pathsep + os.environ["PATH"]}
        for name in package.NAMES:
            program = f"rdsrt-{name}"
            printed = subprocess.run([program, "--help"], stdout=subprocess.PIPE, text=True, env=paths).stdout
            wanted = {*re.findall(r"^ +(?:-\w, )?(--[a-z][a-z-]*)", printed, re.M)}
            bash = f"source {FOLDER}/rdsrt.bash; _rdsrt_program {program} --; printf '%s\\n' \"${{COMPREPLY[@]}}\"; complete -p {program}"
            fish = f"source {FOLDER}/rdsrt.fish; complete -C '{program} --'"
            for shell, words in (("bash", ["bash", "-c", bash]), ("fish", ["fish", "--no-config", "-c", fish])):
                found = subprocess.run(words, stdout=subprocess.PIPE, text=True, env=paths, timeout=SECONDS).stdout
                lacking = wanted - {it.split("\t")[0] for it in found.splitlines()}
                self.check(f"{shell} after {program}", (lacking, wanted != set()), (set(), True), found)
            self.check(f"zsh knows {program}", program in text_of("tools/completions/_rdsrt").splitlines()[0].split(), True)

    def test_zsh_and_fish_describe_each_command(self):
        self.describe("zsh")
        self.describe("fish")
