#!/usr/bin/env python3
"""Attacks the guard as a sender of proofs, a neighbour on the machine or bad luck would: the command must never run but for a proof that is accepted
for the operator's own head and is on record, and what keeps it from running must be said.

Usage: tests/guard.py [PROGRAM]     (target/bindings/debug/phieulakhon, which bindings/run builds)
"""
import hashlib
import os
import random
import resource
import shutil
import signal
import stat
import subprocess
import sys
import tempfile
import threading
import time
from pathlib import Path

ROOT = Path(__file__).resolve().parent.parent
PROGRAM = Path(sys.argv[1] if len(sys.argv) > 1 else ROOT / "target" / "bindings" / "debug" / "phieulakhon").resolve()


def job(name):
    whole = (ROOT / "examples" / f"{name}.job").read_bytes()
    return whole[:36], whole[36:]


HEAD, GOOD = job("accepted")  # the operator's records, and a proof that is accepted for them
BAD = job("flipped_value")[1]  # refused for them
# The sender's own parameters and context, with a proof for these: a job that `verify` accepts.
SENT = bytes.fromhex("04020102") + bytes(32)
SENT += subprocess.run(
    [PROGRAM, *"write --n 4 --b 2 --k 1 --q 2 --context".split(), "00" * 32], input=b"1 2 3 4", stdout=subprocess.PIPE, check=True
).stdout
HEAD_WORDS = ["--n", str(HEAD[0]), "--b", str(HEAD[1]), "--k", str(HEAD[2]), "--q", str(HEAD[3]), "--context", HEAD[4:].hex()]

faults = []
tried = 0
place = Path(tempfile.mkdtemp(prefix="guard-"))
os.chdir(place)


def fresh():
    """An empty folder for a case, with the command that the guard is to run. The command notes each run, and what it finds on record."""
    global place
    place = Path(tempfile.mkdtemp(dir=place.parent if place.name.startswith("case-") else place, prefix="case-"))
    os.chdir(place)
    os.mkdir("records", 0o700)
    Path("good").write_bytes(GOOD)
    Path("bad").write_bytes(BAD)
    Path("sent").write_bytes(SENT)
    Path("head").write_bytes(HEAD)
    Path("purge").write_text(
        f"""#!/bin/sh
echo "$PHIEULAKHON_RECORD" >>{place}/ran
test -s "$PHIEULAKHON_RECORD" -a -s "$PHIEULAKHON_PROOF" || echo none >>{place}/early
"""
    )
    os.chmod("purge", 0o700)


def ran():
    return Path("ran").read_text().splitlines() if Path("ran").exists() else []


def call(words, **options):
    options.setdefault("stdin", subprocess.DEVNULL)
    options.setdefault("timeout", 20)
    try:
        done = subprocess.run([PROGRAM, "guard", *map(str, words)], stdout=subprocess.PIPE, stderr=subprocess.PIPE, **options)
    except subprocess.TimeoutExpired:
        return "it waits", ""
    return done.returncode, done.stderr.decode(errors="replace")


def words(proof, head=None, record="records", command=None):
    return [*(head or HEAD_WORDS), "--record", record, proof, "--", *(command or [place / "purge"])]


def fault(what, text):
    faults.append(f"{what}: {text}")


def check_records(what):
    """Of every run there is a record with the accepted proof beside it, as the command found it at its start."""
    if Path("early").exists():
        fault(what, "the command ran before its record was there")
    for path in ran():
        try:
            record = dict(line.split(": ", 1) for line in Path(path).read_text().splitlines())
            proof = (Path(path).parent / record["proof"]).read_bytes()
            found = proof, record["sha256"], record["line"], record["head"]
        except (OSError, KeyError, ValueError) as error:
            fault(what, f"the command ran without a whole record: {error!r}")
            continue
        if found != (GOOD, hashlib.sha256(GOOD).hexdigest(), "accepted 260", HEAD.hex()):
            fault(what, "the command ran, and the proof on record is not the accepted one")


def expect(what, answer, status, said, runs):
    """One case: its status, a part of what was said, how often the command has run."""
    global tried
    tried += 1
    got, text = answer
    if got != status:
        fault(what, f"status {got}, not {status}; it said {text!r}")
    if said not in text:
        fault(what, f"it said {text!r}, not {said!r}")
    if isinstance(got, int) and 0 < got < 10 and not text.startswith("kept: "):
        fault(what, f"it did not say that the table is kept: {text!r}")
    if len(ran()) != runs:
        fault(what, f"the command ran {len(ran())} times, not {runs}")
    check_records(what)
    if list(Path("records").glob("*.part")):
        fault(what, "a part of a record is left")


def piped(data):
    """A descriptor that gives the bytes, and then ends."""
    read_end, write_end = os.pipe()
    os.write(write_end, data)
    os.close(write_end)
    return read_end


def from_pipe(data, proof):
    """Something on standard input, which the guard has no business with."""
    pipe = piped(data)
    try:
        return call(words(proof), stdin=pipe)
    finally:
        os.close(pipe)


def with_head(data, proof, through):
    """The head through a pipe, as the shell's <(...) or as standard input."""
    pipe = piped(data)
    try:
        if through == "stdin":
            return call(words(proof, ["--head", "/dev/stdin"]), stdin=pipe)
        return call(words(proof, ["--head", f"/dev/fd/{pipe}"]), pass_fds=[pipe])
    finally:
        os.close(pipe)


class Meanwhile:
    """Does something over and over in a second thread."""

    def __init__(self, *steps):
        self.steps, self.over = steps, False
        self.thread = threading.Thread(target=self.turn)

    def turn(self):
        while not self.over:
            for step in self.steps:
                step()
                time.sleep(random.random() / 1000)

    def __enter__(self):
        self.thread.start()

    def __exit__(self, *_):
        self.over = True
        self.thread.join()


def many(what, turns, proof, statuses, head=None, may_run=True):
    """Many runs while something changes: only these statuses, a run for each 0 and for no other, and each of an accepted proof on record."""
    global tried
    tried += 1
    counts = {}
    for _ in range(turns):
        status, text = call(words(proof, head))
        counts[status] = counts.get(status, 0) + 1
        if status != 0 and not text.startswith("kept: "):
            fault(what, f"status {status}, and it said {text!r}")
    if set(counts) - statuses:
        fault(what, f"statuses {counts}, not only {sorted(statuses)}")
    if len(ran()) != counts.get(0, 0) or (ran() and not may_run):
        fault(what, f"the command ran {len(ran())} times; statuses {counts}")
    check_records(what)
    return counts


# --- as it is meant to be used
fresh()
expect("an accepted proof", call(words("good")), 0, "", 1)
expect("a refused proof", call(words("bad")), 1, "refused 23 at 156", 1)
expect("an accepted proof, the head in a file", call(words("good", ["--head", "head"])), 0, "", 2)
expect("another batch's proof", call(words("good", [*HEAD_WORDS[:-1], "00" * 32])), 1, "refused 23", 2)
expect("parameters that are not valid", call(words("good", ["--n", "1", *HEAD_WORDS[2:]])), 1, "refused 10 at 0", 2)

# --- the head from a pipe: what is read twice is empty the second time, and the sender's bytes become the head
fresh()
for through in ["fd", "stdin"]:
    what = f"the head from a pipe ({through})"
    runs = len(ran())
    expect(what + ", the sender's job as proof", with_head(HEAD, "sent", through), 1, "refused", runs)
    expect(what + ", an accepted proof", with_head(HEAD, "good", through), 0, "", runs + 1)
    for length in [0, 35, 37]:
        expect(what + f" of {length} bytes", with_head((HEAD + HEAD)[:length], "sent", through), 2, "bytes", runs + 1)
expect("the head from a folder", call(words("good", ["--head", "."])), 2, "head", 2)
expect("no head", call(words("good", ["--head", "nothing"])), 2, "head", 2)
expect("the head is -", call(words("good", ["--head", "-"])), 2, "./-", 2)
expect("a head and a context", call(words("good", ["--head", "head", *HEAD_WORDS])), 2, "both", 2)

# --- head and proof that are rewritten meanwhile
fresh()
with Meanwhile(lambda: Path("head").write_bytes(b""), lambda: Path("head").write_bytes(HEAD)):
    many("the head is emptied and filled meanwhile", 60, "sent", {1, 2}, ["--head", "head"], may_run=False)
fresh()
with Meanwhile(lambda: Path("proof").write_bytes(BAD), lambda: Path("proof").write_bytes(GOOD)):
    Path("proof").write_bytes(GOOD)
    many("the proof is rewritten meanwhile", 60, "proof", {0, 1, 5})


def swap(target):
    os.symlink(target, "new")
    os.rename("new", "proof")


fresh()
swap("good")
with Meanwhile(lambda: swap("bad"), lambda: swap("good")):
    many("the proof is a link that turns meanwhile", 60, "proof", {0, 1})

# --- a planted verifier, by the current folder, PATH and the environment
fresh()
os.makedirs("target/bin")
for name in ["target/bin/verify", "verify", "phieulakhon", "sh", "cat", "wc", "sha256sum"]:
    Path(name).write_text("#!/bin/sh\necho accepted 260\n")
    os.chmod(name, 0o700)
planted = dict(os.environ, PATH=f"{place}:.:{os.environ['PATH']}", VERIFY="true", PHIEULAKHON_LIB=str(place), PHIEULAKHON_RECORD="x")
expect("a planted verifier", call(words("bad"), env=planted), 1, "refused 23 at 156", 0)
expect("a planted verifier, the head in a file", call(words("bad", ["--head", "head"]), env=planted), 1, "refused 23 at 156", 0)
expect("a planted verifier, an accepted proof", call(words("good"), env=planted), 0, "", 1)

# --- a proof that is called -
fresh()
expect("the proof is -", from_pipe(GOOD, "-"), 2, "./-", 0)
Path("-").write_bytes(BAD)
expect("a refused file called -", from_pipe(GOOD, "./-"), 1, "refused 23", 0)
expect("the proof is -, and there is a file", from_pipe(GOOD, "-"), 2, "./-", 0)
Path("-").write_bytes(GOOD)
expect("an accepted file called -", from_pipe(BAD, "./-"), 0, "", 1)

# --- a proof whose name looks like an option
for name in ["--help", "--version", "--head=sent", "--context=" + "00" * 32, "--record=/tmp", "--"]:
    Path(name.replace("/", "_")).write_bytes(SENT)
    expect(f"the proof is called {name}", call(words(name)), 2, "", 1)

# --- killed
fresh()
tried += 1
for turn in range(40):
    program = subprocess.Popen([PROGRAM, "guard", *map(str, words("bad" if turn % 2 else "good"))], stderr=subprocess.DEVNULL)
    time.sleep(random.random() / 100)
    program.kill()
    program.wait()
    if not turn % 2 and program.returncode in range(1, 10):
        fault("killed", f"status {program.returncode}")
time.sleep(0.3)
check_records("killed")
if len(ran()) > 20:
    fault("killed", f"the command ran {len(ran())} times for 20 accepted proofs")

# --- a full disk: no file may grow beyond so many bytes
fresh()


def limited(length, ends):
    def limit():
        signal.signal(signal.SIGXFSZ, signal.SIG_DFL if ends else signal.SIG_IGN)
        resource.setrlimit(resource.RLIMIT_FSIZE, (length, length))

    return limit


for length in [0, 1, 100, 259]:
    expect(f"a disk that is full after {length} bytes", call(words("good"), preexec_fn=limited(length, False)), 4, "the copy", 0)
for length in [260, 300]:
    expect(f"a disk that is full after {length} bytes", call(words("good"), preexec_fn=limited(length, False)), 4, "the record", 0)
if list(Path("records").iterdir()):
    fault("a full disk", "something is left in the folder of records")
tried += 1
if call(words("good"), preexec_fn=limited(100, True))[0] != -signal.SIGXFSZ or ran():
    fault("ended by the signal of a full disk", f"the command ran {len(ran())} times")
shutil.rmtree("records")
os.mkdir("records", 0o700)
# one page in all: the copy fits, and the record does not
tiny = ["unshare", "-m", "sh", "-c", 'mount -t tmpfs -o size=4k,mode=700 none records && exec "$0" "$@"']
if subprocess.run([*tiny, "true"], stdout=subprocess.DEVNULL, stderr=subprocess.DEVNULL).returncode == 0:
    done = subprocess.run([*tiny, PROGRAM, "guard", *map(str, words("good"))], stdout=subprocess.PIPE, stderr=subprocess.PIPE)
    expect("a file system of one page", (done.returncode, done.stderr.decode()), 4, "No space left", 0)

# --- folders of records that are none, or not the operator's alone
fresh()
os.symlink("records", "link")
Path("file").write_text("")
expect("the folder of records is a link", call(words("good", record="link")), 4, "records", 0)
expect("the folder of records is a file", call(words("good", record="file")), 4, "records", 0)
expect("there is no folder of records", call(words("good", record="nothing")), 4, "records", 0)
for mode in [0o777, 0o1777, 0o770]:
    os.chmod("records", mode)
    expect(f"the folder of records has mode {mode:o}", call(words("good")), 4, "others", 0)
os.chmod("records", 0o700)
expect("no folder of records is named", call([*HEAD_WORDS, "good", "--", place / "purge"]), 2, "--record", 0)
if os.geteuid() == 0:
    os.chown("records", 12345, 12345)
    expect("the folder of records is another user's", call(words("good")), 4, "another user", 0)
    os.chown("records", 0, 0)
expect("a good folder of records", call(words("good")), 0, "", 1)
for path in Path("records").iterdir():
    if stat.S_IMODE(path.stat().st_mode) != 0o600:
        fault("a good folder of records", f"{path} has mode {path.stat().st_mode:o}")

# --- proofs that are links, or no files
fresh()
for name, target in [("to_good", "good"), ("to_bad", "bad"), ("dangling", "nothing"), ("loop", "loop"), ("to_folder", ".")]:
    os.symlink(target, name)
os.mkfifo("fifo")
Path("empty").write_bytes(b"")
with open("huge", "wb") as huge:
    huge.write(GOOD)
    huge.truncate(1 << 40)
expect("a link to an accepted proof", call(words("to_good")), 0, "", 1)
expect("a link to a refused proof", call(words("to_bad")), 1, "refused 23", 1)
expect("a link to nothing", call(words("dangling")), 3, "dangling", 1)
expect("a link to itself", call(words("loop")), 3, "loop", 1)
expect("a link to a folder", call(words("to_folder")), 3, "no regular file", 1)
expect("a folder", call(words(".")), 3, "no regular file", 1)
expect("a pipe that nobody writes", call(words("fifo")), 3, "no regular file", 1)
expect("a device", call(words("/dev/zero")), 3, "no regular file", 1)
expect("standard input", from_pipe(GOOD, "/dev/stdin"), 3, "no regular file", 1)
expect("no proof", call(words("nothing")), 3, "nothing", 1)
expect("a file that is longer than it says", call(words("/proc/self/status")), 5, "changed", 1)
expect("an empty proof", call(words("empty")), 1, "refused 26 at 0", 1)
expect("a proof of a terabyte", call(words("huge")), 1, "refused 27 at 261", 1)

# --- commands that fail, and command lines that are wrong
fresh()
Path("no_program").write_text("")
os.chmod("no_program", 0o600)
for status in [1, 2, 3, 4, 5, 6, 9, 77, 255]:
    expect(f"a command that ends with {status}", call(words("good", command=["sh", "-c", f"exit {status}"])), 10, f"ended with status {status};", 0)
expect("a command that is killed", call(words("good", command=["sh", "-c", "kill -9 $$"])), 11, "signal 9", 0)
expect("a command that is not there", call(words("good", command=[place / "nothing"])), 6, "nothing", 0)
expect("a command that is no program", call(words("good", command=[place / "no_program"])), 6, "no_program", 0)
expect("no command", call(words("good")[:-1]), 2, "command", 0)
expect("no proof is named", call([*HEAD_WORDS, "--record", "records", "--", place / "purge"]), 2, "PROOF", 0)
expect("two proofs are named", call([*HEAD_WORDS, "--record", "records", "bad", "good", "--", place / "purge"]), 2, "PROOF", 0)
expect("an option twice", call(words("good", [*HEAD_WORDS, "--n", "4"])), 2, "twice", 0)
expect("an option that is not there", call(words("good", [*HEAD_WORDS, "--force"])), 2, "--force", 0)
expect("a context that is too short", call(words("good", [*HEAD_WORDS[:-1], "00" * 31])), 2, "64", 0)
expect("a shell's words", call(words("good", command=["echo; touch ran"])), 6, "touch", 0)
full = os.open("/dev/full", os.O_WRONLY)
status = subprocess.run([PROGRAM, "guard", *map(str, words("bad"))], stderr=full).returncode
expect("nobody can be told", (status, "kept: "), 1, "", 0)

os.chdir("/")
shutil.rmtree(place.parent)
for text in faults:
    print(text)
print(f"the guard: {tried} attacks and uses, {len(faults)} faults")
sys.exit(1 if faults else 0)
