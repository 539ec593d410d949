"""Programs that are run with an output that cannot be written, for the cases of the gateway and of the office programs."""
import contextlib
import os
import subprocess
import tempfile

# A program that goes on for so long has not stopped reading.
SECONDS = 30


@contextlib.contextmanager
def full_disk():
    with open("/dev/full", "wb") as out:
        yield out


@contextlib.contextmanager
def pipe_that_nobody_reads():
    reader, writer = os.pipe()
    os.close(reader)
    try:
        yield writer
    finally:
        os.close(writer)


# a name, the output, and the system's reason
OUTPUTS = (("a full disk", full_disk, "No space left on device"), ("a pipe that nobody reads", pipe_that_nobody_reads, "Broken pipe"))


@contextlib.contextmanager
def given(data):
    """An input in a file, or lines that never end."""
    if data is None:
        with subprocess.Popen(["yes"], stdout=subprocess.PIPE) as endless:
            yield endless.stdout
            endless.kill()
    else:
        with tempfile.TemporaryFile() as file:
            file.write(data)
            file.seek(0)
            yield file


def said(command, out, data=None, folder="."):
    """What a program says on standard error; without data its lines never end."""
    with given(data) as lines:
        try:
            ran = subprocess.run(command, stdin=lines, stdout=out, stderr=subprocess.PIPE, cwd=folder, timeout=SECONDS)
        except subprocess.TimeoutExpired:
            return f"no end after {SECONDS} seconds\n"
    return ran.stderr.decode()
