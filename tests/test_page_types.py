"""The page's scripts by tools: their types, and the direction of their imports."""
import glob
import os
import re
import subprocess
import zlib

from tests.needed import needs
from tests.support import Case, path, text_of

# each folder of the page imports only those before it
FOLDERS = ("program", "model", "display", "ui")


class Scripts(Case):
    @needs("node-typescript")
    def test_the_types_fit(self):
        """By the JSDoc of classes and functions."""
        done = subprocess.run(["tsc", "-p", path("page")], stdout=subprocess.PIPE, text=True, check=False)
        self.check("tsc", (done.returncode, done.stdout), (0, ""))

    def test_imports_have_one_direction(self):
        for file in glob.glob(path("page/*/*.js")):
            own = os.path.basename(os.path.dirname(file))
            others = re.findall(r'^import .* from "\.\./(\w+)/', text_of(file), re.M)
            later = [it for it in others if FOLDERS.index(it) > FOLDERS.index(own)]
            self.check(os.path.relpath(file, path("page")), later, [])

    def test_a_line_declares_one_thing(self):
        for file in glob.glob(path("page/*/*.js")):
            several = re.findall(r"^ *(?:const|let) (?:[\w$]+|\{[^=]*\}|\[[^=]*\]) = [^;]*?, \w+ = .*$", text_of(file), re.M)
            wrong = [it for it in several if not re.search(r"[({\[]", it.split("=", 1)[1].split(",")[0])]
            self.check(os.path.relpath(file, path("page")), wrong, [])

    def test_scripts_and_style_stay_small(self):
        """At most 55,000 bytes, packed."""
        scripts = "".join(text_of(file) for folder in FOLDERS for file in glob.glob(path(f"page/{folder}/*.js")))
        size = len(zlib.compress((scripts + text_of("page/style.css")).encode(), 9))
        self.check("bytes, packed", size if size > 55_000 else "fit", "fit")
