"""tools/edits without the prover: how it reads edits, which it tries together, and what it takes for a refusal."""
import contextlib
import glob
import io
import os
from unittest import mock

from tests.support import Case, path, script, temporary_folder, text_of

import crates

SOURCE = '''const LEAST: u8 = 2;

pub struct Dwell {
    slots: u8,
}

impl Dwell {
    pub const fn get(self) -> u8 {
        self.slots
    }
}

impl fmt::Display for Dwell {
    fn fmt(&self) -> u8 {
        self.slots + 1
    }
}

#[unsafe(no_mangle)]
pub extern "C" fn rdsrt_dwell(slots: u8) -> u8 {
    slots.max(LEAST)
}
'''


def text(*pairs, file="src/dwell.rt"):
    """Returns the text of an edit with these old and new lines."""
    return f"file: {file}\n" + "".join(f"old: {old}\nnew: {new}\n" for old, new in pairs)


OF_FMT, OF_DWELL = ("self.slots + 1", "self.slots"), ("slots.max(LEAST)", "LEAST")
GET, FMT, DWELL = text(("get(self) -> u8 {", "get(self) -> u8 { return 0;")), text(OF_FMT), text(OF_DWELL)
LEAST, BOTH = text(("LEAST: u8 = 2", "LEAST: u8 = 3")), text(OF_FMT, OF_DWELL)
# the end of each output of a check
END = "only=2 proved=0\n"


class Edits(Case):
    def setUp(self):
        self.edits = script("tools/edits")
        self.crate = temporary_folder(self)
        self.write("src/dwell.rt", SOURCE)

    def write(self, name, given):
        """Writes a file of the crate. Returns its path."""
        at = os.path.join(self.crate, name)
        os.makedirs(os.path.dirname(at), exist_ok=True)
        with open(at, "w", encoding="utf-8") as file:
            file.write(given)
        return at

    def edit(self, given, name="wrong"):
        return self.edits.read_edit(self.write(f"edits/{name}.edit", given), self.crate)

    def why(self, given):
        """Returns why an edit shows nothing."""
        try:
            return self.edit(given) and None
        except self.edits.BadEdit as why:
            return str(why)

    def test_an_edit_names_what_it_changes(self):
        for given, names in ((GET, {"Dwell::get"}), (FMT, {"DwellDisplay::fmt"}), (DWELL, {"rdsrt_dwell"}),
                             (LEAST, {"LEAST"}), (BOTH, {"DwellDisplay::fmt", "rdsrt_dwell"})):
            self.check(given, self.edit(given).names, {("src/dwell.rt", it) for it in names})
        for file, name, is_alone, word in (("src/dwell.rt", "Dwell::get", False, "Dwell::get"),
                                           ("src/dwell.rt", "rdsrt_dwell", False, "dwell::rdsrt_dwell"),
                                           ("src/a/mod.rt", "f", False, "a::f"), ("src/lib.rt", "f", False, "f"),
                                           ("src/dwell.rt", "LEAST", False, "dwell"), ("src/dwell.rt", "LEAST", True, "")):
            self.check(f"{name} in {file}, alone: {is_alone}", self.edits.path_of(file, name, is_alone), word)

    def test_some_edits_show_nothing(self):
        self.write("specs/Dwell.antt", "d = 2\n")
        for given, why in ((text(), "it has no lines old: and new:"),
                           ("old: x\nnew: y\n", "a line new: has no line file: or old: before it"),
                           (text(("slots + 2", "")), "src/dwell.rt has its old line 0 times"),
                           (text(("self.slots", "0")), "src/dwell.rt has its old line 2 times"),
                           (text(("    slots: u8,", "    slots: u16,")), "it changes no body and names no law"),
                           (text(("d = 2", "d = 3"), file="specs/Dwell.antt"), "it changes no body and names no law")):
            self.check(given, self.why(given), why)

    def test_an_edit_of_a_definition_names_laws_and_is_tried_alone(self):
        self.write("specs/Dwell.antt", "d = 2\n")
        wrong = self.edit("law: laws::safe\n" + text(("d = 2", "d = 3"), file="specs/Dwell.antt"), "z")
        self.check("laws", wrong.names, {("src/laws.rt", "safe")})
        batches = self.edits.batches([self.edit(FMT, "a"), wrong, self.edit(DWELL, "b")], self.crate)
        self.check("batches", [len(it) for it in batches], [2, 1])
        refused = "fn low::laws::safe: not proved\n"
        self.check("a law fails", self.edits.judged(wrong, 1, refused + END)[0], True)
        self.check("another one", self.edits.judged(wrong, 1, refused.replace("safe", "free") + END)[0], False)

    def test_edits_of_one_body_are_tried_one_after_the_other(self):
        edits = [self.edit(it, name) for name, it in (("a", FMT), ("b", DWELL), ("c", BOTH), ("d", LEAST))]
        found = [[os.path.basename(it.path)[0] for it in batch] for batch in self.edits.batches(edits, self.crate)]
        self.check("batches", found, [["a", "b"], ["c"], ["d"]])
        changed = self.edits.applied(edits[:2], self.crate)["src/dwell.rt"]
        self.check("both are applied", changed,
                   SOURCE.replace("self.slots + 1", "self.slots").replace("slots.max(LEAST)", "LEAST"))

    def judged(self, output, given=FMT, status=1, is_alone=False):
        return self.edits.judged(self.edit(given), status, output, is_alone)

    def test_a_refusal_is_a_failure_of_the_body_itself(self):
        own = "fn low::dwell::DwellDisplay::fmt: not proved\n"
        calls = "fn low::dwell::DwellDisplay::fmt: no proof: it calls `low::dwell::Dwell::get`, which is not proved\n"
        unanswered = own.replace("not proved", "no proof: expected answers in F; `search` did not prove `returns`")
        for output, is_refused in ((own, True), (own.replace("proved", "proved; it calls `f`, which is not proved"), True),
                                   (unanswered, True), (calls, False), (own.replace("not proved", "proved"), False),
                                   (own.replace("DwellDisplay::fmt", "Dwell::get"), False)):
            self.check(output, self.judged(output + END)[0], is_refused)
        other = "fn low::other::f: not proved\n"
        self.check("a constant: a function of its file", self.judged(own + END, LEAST)[0], True)
        self.check("a constant: another function", self.judged(other + END, LEAST)[0], False)
        self.check("a constant alone: another function", self.judged(other + END, LEAST, is_alone=True)[0], True)

    def test_what_fails_for_its_form_is_not_refused(self):
        name, proof = "fn low::dwell::DwellDisplay::fmt", "./proofs/dwell/DwellDisplay/fmt/Answers.antt:5:1: error: "
        covered = f"{name}: no proof: expected `fmt_spec` in F; the borrow checker does not cover this function yet\n"
        why = f"only the form of {name[3:]}: {covered.partition('no proof: ')[2].strip()}"
        self.check("the borrow checker does not cover it", self.judged(covered + END), (False, why))
        lost = f"{proof}`c.get` is not in scope\n{name}: not proved\n"
        self.check("its proof names what is gone", self.judged(lost + END)[0], False)
        wrapped = f"{proof}`returns`: record `c` (nearest: .set)\n      has no field `get`\n{name}: not proved\n"
        self.check("in a message of two lines", self.judged(wrapped + END),
                   (False, f"only the form of {name[3:]}: `returns`: record `c` (nearest: .set) has no field `get`"))
        self.check("and a goal fails", self.judged(f"{proof}`returns`: `search`: no proof\n{wrapped}{END}")[0], True)
        self.check("and a goal fails", self.judged(f"{proof}`returns`: `search`: no proof\n{lost}{END}")[0], True)
        for status, output in ((1, "src/dwell.rt:5:1: error[unknown-field]: no\n"),
                               (1, f"src/dwell.rt:5:1: error[borrow]: no\n{name}: not proved\n{END}"),
                               (1, f"src/dwell.rt:5:1: error: no\n{name}: not proved\n{END}"),
                               (2, "error: --only fits no function\n"), (0, "only=1 proved=1\n"), (-9, "")):
            self.check(f"status {status}: {output}", self.judged(output, status=status)[0], False)

    def test_each_check_has_its_own_copy_of_the_proofs(self):
        """What one edit leaves there is no start for another one."""
        seen, kept = [], self.write("kept/proof", "as it is")

        def checked(name, uses, edits, at, is_alone):
            proof = os.path.join(at, "out/incremental/proof")
            seen.append((text_of(proof), text_of(os.path.join(at, "src/dwell.rt")) == SOURCE))
            with open(proof, "w", encoding="utf-8") as file:
                file.write("of an edit")
            return 1, f"fn low::dwell::rdsrt_dwell: not proved\n{END}"
        edit = self.edit(DWELL)
        with mock.patch.multiple(self.edits, checked=checked, folder=lambda name: self.crate):
            for _ in range(2):
                found, count = self.edits.tried("low", {}, [edit], os.path.dirname(kept))
                self.check("refused", (found[edit][0], count), (True, 1))
        self.check("proofs, and whether the source has no edit", seen, [("as it is", False)] * 2)
        self.check("the proofs of the crate", text_of(kept), "as it is")

    def test_nothing_is_refused_in_a_crate_that_is_not_proved(self):
        with mock.patch.object(self.edits, "folder", lambda name: self.crate):
            self.write("edits/wrong.edit", DWELL)
            crate = self.edits.Crate("low", ["edits"])
            with contextlib.redirect_stdout(io.StringIO()):
                self.check("batches", crate.begin("kept", "fn low::dwell::rdsrt_dwell: not proved\n"), [])
            self.check("the edit", [*crate.found.values()], [(False, "what it changes is not proved as it is")])
            self.check("a batch of a proved crate", [len(it) for it in self.edits.Crate("low", ["edits"]).begin("kept", None)], [1])

    def test_each_kept_edit_fits(self):
        for name in crates.listed():
            self.check(name, self.edits.edits_of(name, ["edits"])[1], [])
            for at in glob.glob(path(f"crates/{name}/edits/*")):
                self.check(f"{at} is an edit", at.endswith(".edit"), True)
