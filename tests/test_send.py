"""programs/send: an encoder over TCP or a serial port gets each text of `decode` once, with its escapes undone, and nothing
else."""
import contextlib
import os
import pty
import re
import select
import socket
import subprocess
import termios
import threading
import time

from tests.support import PROMPT, SECONDS, Case, path, text_of
from tests.test_commands import ran

SEND = path("programs/send")
# lines of decode: what station sets first, a text with a quotation mark, what a receiver drops, and other parts
LINES = r'''128 text ""
384 text "Say \x22Hi\x22 - Déjà Vu"
390 name "POP MIX "
391 item 1 1
392 tag1 ITEM.TITLE "Hi"
512 text none
512 tag1 none
700 text "a\x0ART1=b\x1F\x8D"
900 text ""
'''


@contextlib.contextmanager
def encoder(answers=b""):
    """An encoder behind TCP that takes one connection. Gives its HOST:PORT, and a list that has what it got at the end."""
    got = []

    def listen():
        connection, _ = server.accept()
        # a program that ends before it has read all answers resets the connection, once it has sent its commands
        with connection, contextlib.suppress(ConnectionResetError):
            connection.sendall(answers)
            while piece := connection.recv(1 << 16):
                got.append(piece)
    with socket.create_server(("127.0.0.1", 0)) as server:
        thread = threading.Thread(target=listen, daemon=True)
        thread.start()
        yield f"127.0.0.1:{server.getsockname()[1]}", got
        thread.join(PROMPT)


def received(given, *words, answers=b""):
    """Returns what an encoder got for these lines, and the status, the output and the errors of the program."""
    with encoder(answers) as (place, got):
        done = subprocess.run([SEND, *words, place], input=given.encode(), capture_output=True, timeout=SECONDS)
    return b"".join(got), done.returncode, done.stdout.decode(), done.stderr.decode()


class Send(Case):
    def test_each_text_goes_out_once(self):
        got, status, output, errors = received(LINES)
        self.check("what the encoder gets", got,
                   b'RT1=Say "Hi" - D\x82j\x81 Vu\r\nRT1=a RT1=b \x8d\r\nRT1=\r\n')
        self.check("what it sent", (status, output, errors),
                   (0, '384 RT1=Say "Hi" - Déjà Vu\n700 RT1=a RT1=b ß\n900 RT1=\n', ""))

    def test_tags_go_out_when_decode_prints_them_and_zeros_when_it_drops_them(self):
        """The place of each piece in the text, and lengths less one. The second of two equal pieces has the second place."""
        lines = """5 text "Queen - Queen"
133 item 1 1
133 tag1 ITEM.ARTIST "Queen"
133 tag2 ITEM.TITLE "Queen"
400 text none incomplete
400 item none
400 tag1 none
400 tag2 none
420 text "D\\xE1 - No"
548 item 0 1
548 tag1 12 "No"
"""
        got, status, output, _ = received(lines, "--tags", "RTP={type1},{start1},{length1},{type2},{start2},{length2};{toggle}")
        wanted = ["5 RT1=Queen - Queen", "133 RTP=4,0,4,0,0,0;1", "133 RTP=4,0,4,1,8,4;1", "400 RTP=0,0,0,1,0,4;1",
                  "400 RTP=0,0,0,0,0,0;1", "420 RT1=DÅ - No", "548 RTP=12,5,1,0,0,0;0"]
        self.check("what it sent", (status, output.splitlines()), (0, wanted))
        commands = [it.split(" ", 1)[1].replace("Å", "\xE1").encode("latin-1") + b"\r\n" for it in wanted]
        self.check("what the encoder gets", got, b"".join(commands))
        self.check("no tags without --tags", received(lines)[2].count("RTP"), 0)

    def test_a_refused_command_is_seen_and_sent_again(self):
        for answers, status, sent in (([b"+"], 0, 1), ([b"!", b"ok +\r\n"], 0, 2), ([b"!"] * 3, 1, 3)):
            with self.answering(answers) as (place, got):
                done = subprocess.run([SEND, "--expect", "+", place], input=b'5 text "HI"\n', capture_output=True,
                                      timeout=SECONDS)
            self.check(f"{answers}", (done.returncode, b"".join(got)), (status, b"RT1=HI\r\n" * sent))
            refused = [it for it in done.stderr.decode().splitlines() if "answered" in it]
            self.check(f"{answers}: what is said", refused,
                       [f"send: the encoder answered {it!r} to b'RT1=HI\\r\\n'" for it in answers if b"+" not in it])
        self.check("the end", done.stderr.decode().splitlines()[-1], f"send: {place}: the encoder refused a command 3 times")
        self.check("what was sent", done.stdout, b"")

    @contextlib.contextmanager
    def answering(self, answers):
        """An encoder that gives these answers to one command each. Gives its HOST:PORT, and a list of the commands."""
        got = []

        def play():
            connection, _ = server.accept()
            with connection, connection.makefile("rb") as file:
                for answer in answers:
                    got.append(file.readline())
                    connection.sendall(answer)
                file.read()
        with socket.create_server(("127.0.0.1", 0)) as server:
            thread = threading.Thread(target=play, daemon=True)
            thread.start()
            yield f"127.0.0.1:{server.getsockname()[1]}", got
            thread.join(PROMPT)

    def test_the_line_of_the_page(self):
        """The pipe of docs/AIR.md, for some slots: the empty text that the station sets first does not go out."""
        call = re.search(r"^    (programs/station .* programs/send) HOST:PORT$", text_of("docs/AIR.md"), re.M)[1]
        with encoder() as (place, got):
            call = call.replace("now.txt", "--at-once --slots 1300 <(yes HI | head -1)")
            output = ran(f"{call} {place} 2>/dev/null")
        self.check("what the encoder gets", b"".join(got), b"RT1=HI\r\n")
        self.check("what was sent", re.fullmatch(r"\d+ RT1=HI\n", output) is not None, True, output)

    def test_other_codes_and_other_commands(self):
        line = '5 text "Déjà \\x8D"\n'
        for words, wanted in ((["--encoding", "utf-8", "--end", "lf"], "RT1=Déjà ß\n".encode()),
                              (["--encoding", "latin-1", "--end", "cr"], b"RT1=D\xe9j\xe0 \xdf\r"),
                              (["--begin", "TEXT="], b"TEXT=D\x82j\x81 \x8d\r\n")):
            self.check(f"{words}", received(line, *words)[0], wanted)
        self.check("answers are dropped", received(line, answers=b"+\r\n" * 9)[0], b"RT1=D\x82j\x81 \x8d\r\n")

    def test_a_text_goes_out_before_the_next_line(self):
        """Over a serial port."""
        ours, theirs = pty.openpty()
        with subprocess.Popen([SEND, "--baud", "19200", os.ttyname(theirs)], stdin=subprocess.PIPE,
                              stdout=subprocess.DEVNULL) as program:
            program.stdin.write(b'7 text "HI"\n')
            program.stdin.flush()
            got, until = b"", time.monotonic() + PROMPT
            while not got.endswith(b"\n") and time.monotonic() < until:
                if select.select([ours], [], [], 0.1)[0]:
                    got += os.read(ours, 100)
            self.check("what the encoder gets", got, b"RT1=HI\r\n")
            self.check("speed", termios.tcgetattr(theirs)[4:6], [termios.B19200] * 2)
            program.stdin.close()
            self.check("status", program.wait(PROMPT), 0)
        os.close(ours)
        os.close(theirs)

    def test_a_fault_and_an_encoder_that_is_gone_end_it(self):
        got, status, _, errors = received('1 text "A"\nfault line 9\n')
        self.check("a fault line", (got, status, errors), (b"RT1=A\r\n", 1, "send: fault line 9\n"))
        with socket.create_server(("127.0.0.1", 0)) as server:
            free = f"127.0.0.1:{server.getsockname()[1]}"
        with socket.create_server(("127.0.0.1", 0)) as server:
            call = [SEND, f"127.0.0.1:{server.getsockname()[1]}"]
            with subprocess.Popen(call, stdin=subprocess.PIPE, stderr=subprocess.PIPE) as program:
                server.accept()[0].close()
                _, errors = program.communicate(b'1 text "A"\n', SECONDS)
            self.check("a closed connection", (program.returncode, errors.decode()),
                       (1, f"send: {call[1]}: the encoder closed the connection\n"))
        for place, words in ((free, "Connection refused"), ("/nowhere/tty", "No such file or directory")):
            done = subprocess.run([SEND, place], input=b"", capture_output=True, timeout=SECONDS)
            self.check(place, (done.returncode, done.stderr.decode()), (1, f"send: {place}: {words}\n"))

    def test_wrong_arguments(self):
        for words in (["nowhere"], ["host:70000"], ["host:"], ["--baud", "9601", "/dev/null"],
                      ["--baud", "0", "/dev/null"], [], ["--tags", "RTP={type3}", "/dev/null"]):
            done = subprocess.run([SEND, *words], input=b"", capture_output=True, timeout=SECONDS)
            self.check(f"{words}", (done.returncode, done.stdout), (2, b""))
