"""What the checks of the program over real folders share: its runs, scripts and their answers."""
import os
import random
import string
import subprocess
import sys

HERE = os.path.dirname(os.path.realpath(__file__))


class Found(Exception):
    """What a check has found, in plain words."""


def program():
    """The path of the built program."""
    found = subprocess.run([f"{HERE}/program"], stdout=subprocess.PIPE, text=True)
    if found.returncode:
        sys.exit(found.returncode)
    return found.stdout.strip()


def need(holds, words):
    if not holds:
        raise Found(words)


def run(tsm, folder, words, script="", **how):
    """Runs the program in a folder, over a script (a text, or bytes), to its end: its status, and what it put. Nothing may stand on standard error."""
    data = script if isinstance(script, bytes) else script.encode()
    ran = subprocess.run([tsm, *words], cwd=folder, input=data, stdout=subprocess.PIPE, stderr=subprocess.PIPE, **how)
    need(not ran.stderr, f"{words} put {ran.stderr[:200]!r} on standard error")
    return ran.returncode, ran.stdout.decode(errors="replace")


def some_text(rng, longest=255):
    """A text of 1 to 255 letters and digits."""
    return "".join(rng.choices(string.ascii_letters + string.digits, k=rng.randint(1, longest)))


def get(file):
    """The line that reads a file, which is its node, filespace and path."""
    return "GET " + " ".join(file)


def put(file, text):
    return "PUT " + " ".join(file) + f" 7 TEXT={text}"


def shown(text, object_number=None):
    """What a GET of a text is answered: a DATA line for each 64 bytes or the rest, and the OK line, with an object's number."""
    data = text.encode()
    lines = ["DATA " + data[at : at + 64].hex() for at in range(0, len(data), 64)]
    return [*lines, f"OK object={object_number} size={len(data)}"]


def difference(reply, right):
    """Where an answer differs from the right one, in words."""
    for at, (line, other) in enumerate(zip([*reply, "nothing"], [*right, "nothing"])):
        if line != other:
            return f"put {line!r} in its line {at + 1}, and not {other!r}"
    return "is as it should be"


def answers(text):
    """The answers to the lines of a script, in order, as lists of lines without their numbers; and the last line that has no number, or None.
    A line that has no LF yet is not there."""
    replies, last, open_reply = [], None, []
    for line in text.split("\n")[:-1]:
        number, _, words = line.partition(" ")
        if not number.isdigit():
            need(last is None, f"{line!r} stands behind the last line {last!r}")
            last = line
            continue
        need(last is None and int(number) == len(replies) + 1, f"{line!r} stands where an answer to line {len(replies) + 1} should")
        open_reply.append(words)
        if not words.startswith("DATA "):
            replies.append(open_reply)
            open_reply = []
    return replies, last


def by_line(text):
    """The answers by the numbers of their lines, as lists of lines without them; and the last line, which has no number, or None. A line that has no LF yet is not there."""
    found, last = {}, None
    for line in text.split("\n")[:-1]:
        number, _, words = line.partition(" ")
        need(last is None, f"{line!r} stands behind the last line {last!r}")
        if number.isdigit():
            found.setdefault(int(number), []).append(words)
        else:
            last = line
    return found, last


def report(check):
    """Runs a check to its end: status 0 with what it says, or 1 with the first thing that it finds."""
    name = os.path.basename(sys.argv[0])
    try:
        said = check()
    except Found as found:
        print(f"{name}: {found}", flush=True)
        return 1
    print(f"{name}: {said}", flush=True)
    return 0


def numbers(usage, *defaults):
    """The numbers of the command line, each with what stands for it where it isn't given."""
    words = sys.argv[1:]
    if len(words) > len(defaults) or not all(word.isdigit() for word in words):
        sys.exit(usage)
    return [int(words[at]) if at < len(words) else default for at, default in enumerate(defaults)]


def new_seed():
    return random.SystemRandom().randrange(2**32)
