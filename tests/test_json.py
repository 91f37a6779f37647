"""programs/json: worked lines, live pipes, and the filter over the program beside the Python package."""
import json
import os
import select
import subprocess
import sys
import time

from tests.package import PackageCase
from tests.support import PROGRAM, Case, path, temporary_folder

JSON = path("programs/json")
SECONDS = 120
# in which an object is there: far more than the filter waits, for a busy machine
PROMPT = 20
NOTHING = {"radiotext": None, "radiotext_plus": None, "ptyn": None}
HI = {**NOTHING, "radiotext": "HI"}
TAGS = [{"content-type": "item.artist", "data": "Å"}, {"content-type": "info.news", "data": "\"ß\""}]
# lines of decode, and the objects
WORKED = [
    ("a text", '0 text "HI"\n', [{"slot": 0, **HI}]),
    ("a text that goes", '0 text "HI"\n128 text none\n', [{"slot": 0, **HI}, {"slot": 128, **NOTHING}]),
    ("and why", '0 text "HI"\n128 text none dropped\n', [{"slot": 0, **HI}, {"slot": 128, **NOTHING}]),
    ("the words of a line in a text", '5 text "none"\n6 text ""\n', [{"slot": 5, **HI, "radiotext": "none"},
                                                                   {"slot": 6, **HI, "radiotext": ""}]),
    ("a name with spaces", '7 name "POP MIX "\n', [{"slot": 7, **NOTHING, "ptyn": "POP MIX"}]),
    ("characters", '1 text "\\xE1 \\x8D, \\x22, \\xF7, \\x0A \\x9D é"\n',
     [{"slot": 1, **NOTHING, "radiotext": 'Å ß, ", ø, \\x0A \\x9D é'}]),
    ("tags", '3 text "HI"\n3 item 1 0\n3 tag1 ITEM.ARTIST "\\xE1"\n3 tag2 12 "\\x22\\x8D\\x22"\n',
     [{"slot": 3, **HI, "radiotext_plus": {"item_running": False, "item_toggle": 1, "tags": TAGS}}]),
    ("a tag alone, then none", '3 item 0 1\n3 tag1 54 "X"\n4 tag1 none\n',
     [{"slot": 3, **NOTHING, "radiotext_plus": {"item_running": True, "item_toggle": 0,
                                                "tags": [{"content-type": "54", "data": "X"}]}},
      {"slot": 4, **NOTHING, "radiotext_plus": {"item_running": True, "item_toggle": 0, "tags": []}}]),
    ("a fault", '0 text "HI"\nfault line 2\n', [{"slot": 0, **HI}, {"fault": "line 2"}]),
    ("a fault alone", "fault too long\n", [{"fault": "too long"}]),
    ("no line end", '0 text "HI"', [{"slot": 0, **HI}]),
    ("nothing", "", []),
]
# writes a log by chance, and prints the objects of the package
BY_CHANCE = """
import json, random, sys
import by_chance
from rdsrt import Receiver
rng, dwell, slots = random.Random(int(sys.argv[1])), int(sys.argv[2]), int(sys.argv[3])
groups = by_chance.heard(rng, by_chance.groups(rng, dwell, slots), 0.9)
with open(sys.argv[4], "wb") as file:
    file.write(by_chance.log_of(groups))
for slot, view in Receiver(0xC201, dwell).watch(groups):
    print(json.dumps({"pi": "0xC201", "slot": slot, **view.as_json()}))
"""


def ran(given, *words, **more):
    """Returns the status, the objects and the errors of the filter."""
    done = subprocess.run([JSON, *words], input=given.encode(), stdout=subprocess.PIPE, stderr=subprocess.PIPE,
                          timeout=SECONDS, **more)
    return done.returncode, [json.loads(it) for it in done.stdout.splitlines()], done.stderr.decode()


def next_object(descriptor):
    """Returns the next object, or None if it is not there in time."""
    line = b""
    while not line.endswith(b"\n"):
        if not select.select([descriptor], [], [], PROMPT)[0]:
            return None
        line += os.read(descriptor, 1)
    return json.loads(line)


def changes(objects):
    """Returns the objects that differ from the one before in more than the slot."""
    bare = [{**it, "slot": None} for it in objects]
    return [it for at, it in enumerate(objects) if at == 0 or bare[at] != bare[at - 1]]


class Filter(Case):
    def test_lines_become_objects(self):
        for name, given, wanted in WORKED:
            self.check(name, ran(given), (int("fault" in given), wanted, ""))
        self.check("the programme", ran('0 text "HI"\nfault read\n', "--pi", "c201"),
                   (1, [{"pi": "0xC201", "slot": 0, **HI}, {"pi": "0xC201", "fault": "read"}], ""))
        ascii_alone = {**os.environ, "LC_ALL": "C", "PYTHONUTF8": "0", "PYTHONCOERCECLOCALE": "0"}
        wanted = 0, [{"slot": 0, **HI, "radiotext": "ß"}], ""
        self.check("UTF-8 in any locale", ran('0 text "\\x8D"\n', env=ascii_alone), wanted)
        status, (it,), _ = ran('0 text "HI"\n', "--time")
        self.check("the time", (status, it.pop("rx_time")[:2], it), (0, "20", {"slot": 0, **HI}))
        self.check("a line of sim", ran('0 r0 text "HI"\n1 text "HI"\n'),
                   (1, [{"slot": 1, **HI}], "json: not a line of decode: 0 r0 text \"HI\"\n"))
        for line in ('5 name "A \\\\x22"', '5 text "\\q"', '5 text "\u20AC\u65E5"', '5 tag1 NOTHING "HI"', '5 text 1 0',
                     '5 item "HI"', '5 tag1 "HI"', '5 name ITEM.TITLE "HI"', '\u0665 text "HI"', '1' * 5000 + ' text "HI"'):
            wanted = 1, [{"slot": 1, **HI}, {"slot": 6, **NOTHING}], f"json: not a line of decode: {line[:60]}\n"
            self.check(f"a line that decode does not print: {line[:40]}", ran(f'1 text "HI"\n{line}\n6 text none\n'), wanted)
        done = subprocess.run([JSON], input=b'1 text "HI \xff"\n', capture_output=True, timeout=SECONDS)
        self.check("bytes that are no UTF-8", (done.returncode, done.stdout, done.stderr.count(b"\n")), (1, b"", 1))
        for words in (["--pi", "C20"], ["log"], ["--pi"]):
            self.check(f"refused {words}", ran("", *words)[:2], (2, []))
        with open("/dev/full", "wb") as full:
            done = subprocess.run([JSON], input=b'0 text "HI"\n', stdout=full, stderr=subprocess.PIPE, timeout=SECONDS)
        self.check("full output", (done.returncode, done.stderr.startswith(b"json: ")), (1, True))


    def test_the_times_of_a_log(self):
        """Each slot has the last time of the lines up to its own."""
        log = os.path.join(temporary_folder(self), "log")
        with open(log, "w", encoding="ascii") as file:
            file.write("# a comment\nC201 2140 4849 0D20\nC201 2140 4849 0D20 @2024/06/01 07:58:12.08 more\n\n"
                       "---- ---- ---- ----\nC201 2140 4849 0D20 12.5\n")
        status, objects, _ = ran("".join(f'{slot} text "HI"\n' for slot in range(5)) + "fault line 9\n", "--times", log)
        self.check("times", (status, [it.get("rx_time", "none") for it in objects]),
                   (1, [None, "2024-06-01T07:58:12.08", "2024-06-01T07:58:12.08", "12.5", "12.5", "12.5"]))
        for text, wanted in (("2024-06-01 07:58:12,080", "2024-06-01T07:58:12.080"), (" [07:58:12.08] x", "07:58:12.08"),
                             ("\t1717228692080\t57", "1717228692080"), ("[@2024/06/01 07:58:12]", "2024-06-01T07:58:12"),
                             ("@07:58:12", None), ("12,5", None), ("[12.5", None), ("17172286920800", None)):
            with open(log, "w", encoding="ascii") as file:
                file.write(f"C201 2140 4849 0D20 {text}\n")
            _, objects, _ = ran('0 text "HI"\n', "--times", log)
            self.check(f"{text!r}", [it.get("rx_time", "none") for it in objects], [wanted])
        self.check("no log", ran('0 text "HI"\n', "--times", "/nowhere")[:2], (1, []))
        self.check("both times", ran("", "--time", "--times", log)[:2], (2, []))


class Live(Case):
    def test_an_object_comes_while_the_pipe_stays_open(self):
        """A slot whose lines come in two writes is one object."""
        names = {**os.environ, "PYTHONDONTWRITEBYTECODE": "1"}
        with subprocess.Popen([JSON], stdin=subprocess.PIPE, stdout=subprocess.PIPE, bufsize=0, env=names) as program:
            for pieces, wanted in (([b'0 text "HI"\n'], {"slot": 0, **HI}),
                                   ([b'9 text none\n9 na', b'me "POP     "\n'], {"slot": 9, **NOTHING, "ptyn": "POP"}),
                                   ([b"fault line 12\n"], {"fault": "line 12"})):
                for piece in pieces:
                    program.stdin.write(piece)
                    # longer than the filter waits after a whole line
                    time.sleep(0.1)
                self.check(f"live, {pieces}", next_object(program.stdout.fileno()), wanted)
            program.stdin.close()
            self.check("end of a live pipe", program.wait(SECONDS), 1)

    def test_an_object_comes_after_its_group_and_after_the_last_lost_slot_of_a_dwell(self):
        reads, writes = os.pipe()
        names = {**os.environ, "PYTHONDONTWRITEBYTECODE": "1"}
        words = [PROGRAM, "decode", "--pi", "C201", "--m", "3"]
        with subprocess.Popen(words, stdin=reads, stdout=subprocess.PIPE) as decode:
            os.close(reads)
            with subprocess.Popen([JSON], stdin=decode.stdout, stdout=subprocess.PIPE, bufsize=0, env=names) as program:
                decode.stdout.close()
                for log, wanted in ((b"C201 2140 4849 0D20\n", {"slot": 0, **HI}),
                                    (b"---- ---- ---- ----\n" * 3, {"slot": 3, **NOTHING})):
                    os.write(writes, log)
                    self.check(f"live beside the program, {log[:4]}", next_object(program.stdout.fileno()), wanted)
                os.close(writes)
                self.check("end beside the program", (program.wait(SECONDS), decode.wait(SECONDS)), (0, 0))


class BesideThePackage(PackageCase):
    def test_logs_by_chance_through_decode_and_the_package(self):
        """The last output is longer than a pipe holds."""
        names, log = dict(self.names), os.path.join(self.folder, "log")
        names["PYTHONPATH"] += os.pathsep + path("python/tests")
        for seed, (dwell, slots) in self.cases([(8, 2000), (16, 2000), (32, 2000)] * 3 + [(8, 30_000)]):
            words = [sys.executable, "-c", BY_CHANCE, str(seed), str(dwell), str(slots), log]
            done = subprocess.run(words, stdout=subprocess.PIPE, timeout=SECONDS, env=names, check=True)
            wanted = changes([json.loads(it) for it in done.stdout.splitlines()])
            call = '"$0" decode --pi C201 --m "$1" <"$2" | "$3" --pi C201'
            done = subprocess.run(["sh", "-c", call, PROGRAM, str(dwell), log, JSON], stdout=subprocess.PIPE,
                                  timeout=SECONDS)
            got = changes([json.loads(it) for it in done.stdout.splitlines()])
            with open(log, "rb") as file:
                self.check(f"log {seed} beside the package, M {dwell}", got, wanted, file.read())
            self.check(f"log {seed} has changes", len(got) > 50, True)
