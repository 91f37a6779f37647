"""The commands that are measured, and their inputs."""
import os
import re
import subprocess
import tempfile

import logs
import rows

COUNTED = 100_000               # the slots of which instructions are counted


def ours(program, task, late):
    station = ["--pty", "10"] if task in ("encode", "sim") else []
    lateness = [] if task == "decode" else ["--k", str(late)]
    # without the note on the first text, which comes too early
    return [program, task, "--pi", "C201", *lateness, *station, "--quiet"]


def losing(program, spans):
    """The call for the mixes of a receiver that loses so many of the first slots, each second one."""
    return [program, "witness", "--pi", "C201", "--quiet", "--lose", ",".join(str(2 * it) for it in range(spans))]


def made_input(folder, program, task, receivers, late, slots):
    """The path of the task's input of so many slots, made where it isn't there yet."""
    path = os.path.join(folder, f"{task}.{receivers}.{late}.{slots}")
    if os.path.exists(path):
        return path
    if task == "decode":
        logs.write(path, slots)
    elif task == "audit":
        script = made_input(folder, program, "encode", 0, 0, slots)
        with open(script, "rb") as given, open(path, "wb") as made:
            subprocess.run(ours(program, "encode", 0), stdin=given, stdout=made, check=True)
    else:
        with open(path, "wb") as made:
            made.writelines(rows.pieces(slots, receivers, late))
    return path


def instructions(command, path, statuses=(0,)):
    """Instructions of the command on its input, by callgrind. It ends with one of these statuses."""
    with open(path, "rb") as given, tempfile.NamedTemporaryFile() as counts:
        call = ["valgrind", "--tool=callgrind", f"--callgrind-out-file={counts.name}", *command]
        done = subprocess.run(call, stdin=given, stdout=subprocess.DEVNULL, stderr=subprocess.PIPE, check=False)
    if done.returncode not in statuses:
        raise subprocess.CalledProcessError(done.returncode, call, stderr=done.stderr)
    return int(re.search(rb"refs: +([0-9,]+)", done.stderr)[1].replace(b",", b""))
