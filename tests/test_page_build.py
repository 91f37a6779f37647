"""The page is built beside the other tests, and tested in browsers after all of them: see page_support.py."""
import base64
import hashlib
import os
import re

from tests.page_support import FOLDER
from tests.support import BUILD_PAGE, Case, output


class PageBuild(Case):
    def test_the_page_is_built(self):
        if "RDSRT_PAGE" in os.environ:
            self.skipTest("RDSRT_PAGE names a page that is built")
        status, printed = output([BUILD_PAGE, FOLDER], seconds=3600)
        self.check("page/build", (status, status and printed), (0, 0))

    def test_the_page_is_one_file(self):
        """Its policy lets nothing run but the scripts in it, by their sums."""
        if not os.path.isfile(os.path.join(FOLDER, "index.html")):
            self.skipTest(f"no page in {FOLDER}: page/build makes it")
        self.check("files", os.listdir(FOLDER), ["index.html"])
        with open(os.path.join(FOLDER, "index.html"), encoding="utf-8") as file:
            page = file.read()
        self.check("what it asks for", re.findall(r"<(?:script|link|img)[^>]* (?:src|href)=\"(?!data:)[^\"]*", page), [])
        policy = re.search(r'http-equiv="Content-Security-Policy" content="([^"]*)"', page)[1]
        for kind in ("script", "style"):
            texts = re.findall(rf"<{kind}>(.*?)</{kind}>", page, re.S)
            sums = [base64.b64encode(hashlib.sha256(it.encode()).digest()).decode() for it in texts]
            rule = re.search(rf"{kind}-src ([^;]*)", policy)[1]
            self.check(f"sums of {kind}", re.findall(r"'sha256-([^']*)'", rule), sums)
            self.check(f"more for {kind}", re.sub(r"'sha256-[^']*' ?", "", rule).strip(),
                       "'wasm-unsafe-eval'" if kind == "script" else "")
