"""What tools/held says that a law or a clause holds up alone."""
import re
import subprocess

from tests.support import SECONDS, Case, path


def held(*words):
    """Returns what the script prints, without the lines."""
    done = subprocess.run([path("tools/held"), *words], stdout=subprocess.PIPE, timeout=SECONDS, check=True)
    return re.findall(r"^(\d+) (.*)$", done.stdout.decode(), re.M)


class Held(Case):
    def test_laws_and_clauses_come_with_their_lines(self):
        found = held()
        self.check("some", {"the_dwell_is_the_least", "what_is_received", "what_is_received, clause filled"}
                   <= {law for _, law in found}, True)
        self.check("the dearest first", [int(lines) for lines, _ in found],
                   sorted((int(lines) for lines, _ in found), reverse=True))

    def test_a_law_has_its_definitions_and_lemmas(self):
        """Those of rds_safety `proofs/Least` are for the least dwell alone."""
        names = [name for _, name in held("the_dwell_is_the_least")]
        self.check("its lemmas", any(it.startswith("rds_safety.proofs.Least.") for it in names), True)
