"""The module of the page, with 32-bit memory, answers as the module with 64-bit memory from which it is lowered."""
import base64
import random
import shlex

from tests.page_support import SEED, ChromiumCase, FirefoxCase, call
from tests.support import bytes_of
from tests.test_page_lines import some_log, some_script
from tests.worked_rows import rows

WIDE = "crates/rds_wasm/out/wide.wasm"
# whether the browser has 64-bit memory
HAS_WIDE = "WebAssembly.validate(Uint8Array.of(0, 97, 115, 109, 1, 0, 0, 0, 5, 3, 1, 4, 1))"
# runs the calls in the module with 64-bit memory: it grows by a BigInt
RUN_WIDE = """(async () => {
  const bytes = Uint8Array.from(atob(wide), (c) => c.charCodeAt(0)), plain = WebAssembly.instantiate;
  WebAssembly.instantiate = async () => {
    const { instance: { exports } } = await plain(bytes, {}), { memory } = exports;
    const own = { get buffer() { return memory.buffer; }, grow: (pages) => memory.grow(BigInt(pages)) };
    return { exports: { ...exports, memory: own } };
  };
  await $rdsrt.begin(null);
  WebAssembly.instantiate = plain;
})()"""
RANDOM = 400


def random_call(dice):
    """Returns the words and the input of a run."""
    m, k = str(dice.choice([1, 2, 5, 8, 128, 65535])), str(dice.choice([0, 0, 1, 7]))
    station = ["--pi", "C201"]
    kind = dice.choice(["decode", "audit", "witness", "slots", "encode", "sim", "alone"])
    if kind in ("encode", "sim", "alone"):
        words = ["sim" if kind == "alone" else kind, *station, "--m", m, "--k", k, *(["--flag-alone"] if kind == "alone" else [])]
        return words, some_script(dice, 0 if kind == "encode" else dice.randrange(9), k != "0")
    more = {"decode": ["--m", m, *dice.choice([[], ["--confirm", "8"]])], "audit": ["--all", "--m", m, "--k", k],
            "witness": ["--m", m], "slots": ["--m", m]}[kind]
    return [kind, *(station if kind != "slots" else []), *more], some_log(dice)


class Lowered:
    def test_both_modules_give_the_same_answers(self):
        """Status, output and notes, over the worked rows and random logs and scripts."""
        b = self.b
        if not b.run(HAS_WIDE):
            self.skipTest(f"this {self.name} has no 64-bit memory to compare with")
        dice = random.Random(SEED)
        calls = [*((shlex.split(words), data) for _, words, _, data, _ in rows()), *(random_call(dice) for _ in range(RANDOM))]
        narrow = [call(b, "probe.run", words, list(data)) for words, data in calls]
        b.run(f"window.wide = '{base64.b64encode(bytes_of(WIDE)).decode()}'; undefined")
        b.run(RUN_WIDE)
        for number, ((words, data), got) in enumerate(zip(calls, narrow)):
            self.check(f"seed {SEED}, run {number}: {' '.join(words)}", got, call(b, "probe.run", words, list(data)), data)
        self.check_all("several statuses", {it[0] for it in narrow}, {0, 1, 2})


class Chromium(Lowered, ChromiumCase):
    pass


class Firefox(Lowered, FirefoxCase):
    pass
