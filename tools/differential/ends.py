"""Runs of a program, and how they end."""
import re
import resource
import signal
import subprocess
import tempfile

LONGEST_RUN = 60
# Of memory, where no limit is asked for: so much that no program takes the machine's.
AMPLE = 4 << 30


def run(program, words, source, sink=subprocess.PIPE, limit=None, env=None):
    """How the program ends over these streams: its status, and what it wrote to both outputs."""
    def prepare():
        resource.setrlimit(resource.RLIMIT_CORE, (0, 0))
        for number in (signal.SIGPIPE, signal.SIGXFSZ):
            signal.signal(number, signal.SIG_IGN)
        for which, most in (limit or {resource.RLIMIT_DATA: AMPLE}).items():
            resource.setrlimit(which, (most, most))
    try:
        done = subprocess.run([program, *words], stdin=source, stdout=sink, stderr=subprocess.PIPE, timeout=LONGEST_RUN,
                              preexec_fn=prepare, restore_signals=False, env=env)
    except subprocess.TimeoutExpired:
        return "no end", b"", b""
    return done.returncode, done.stdout or b"", done.stderr


def end_of(status, written, said):
    """The end in a few words, or None where a run may not end like that."""
    if status == 0 and written.endswith(b"\n") and written.count(b"\n") == 1 and not said:
        return "0"
    line = re.fullmatch(rb"schemagen: (\d+ [A-Za-z]+)\n", said)
    if status == 1 and line:
        return line[1].decode()
    if status == 2 and said.startswith(b"usage: ") and said.count(b"\n") == 1 and not written:
        return "2"
    return None


def run_on(program, words, text, sink=subprocess.PIPE, limit=None, env=None):
    """How the program ends with the text as a file for its source."""
    with tempfile.TemporaryFile() as file:
        file.write(text.encode())
        file.seek(0)
        return run(program, words, file, sink, limit, env)
