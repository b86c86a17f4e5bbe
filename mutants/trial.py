"""Tries a change in a scratch copy of the repository: the prover first, on the crate and on those above it, then a
program's recorded output, then the differential test."""
import os
import pathlib
import re
import shutil
import signal
import subprocess
import tempfile
import threading
import time

# What may become of a change, beside the place and the fact of a refusal.
NOT_COMPILED, RECORDED, DIFFERENTIAL, NOTHING = "not compiled", "recorded output", "differential test", "nothing"
# Ends the place of a refusal that says nothing on the contract.
SHAPE = ", `shape`"

# The program that the differential test plays.
TESTED = "settle"
# The folder of a crate in which a check keeps its work, and a build its program.
BUILT = "out"
# How long the prover, the differential test and a program on its recorded input may take, in seconds.
PROVING, TESTING, RUNNING = 3600, 3600, 120
# No file that a changed program writes may fill the disk: 4 GiB, in blocks of 512 bytes.
LIMITED = ["sh", "-c", 'ulimit -f 8388608; exec "$@"', "sh"]

# An error continues in the indented lines after it.
PLACE = r"(?:\./)?(?P<place>(?:src|specs|proofs)/\S+?):\d+:\d+: "
ERROR = re.compile(rf"^{PLACE}error(?:\[[^\]]*\])?: (?P<what>.*(?:\n  .*)*)", re.M)
NOTE = re.compile(rf"^note: {PLACE}(?P<what>it is not proved .*?\(`[^`]*`\))", re.M)
UNPROVED = re.compile(r"^fn \S+: no(?:t proved| proof)", re.M)
GOAL = re.compile(r"^`([^`]*)`:|\(`([^`]*)`\)$")
# An error that only follows from another one.
FOLLOWS = ("was not admitted", "which was rejected")
# What is said where a proof no longer fits the code: a goal, or an argument of an invariant, is gone or has another
# name. Such a refusal says nothing on the contract.
UNFIT = (
    "can be named from here", "this pattern needs a function (or path) type to bind", "is not in scope", "has no field",
)

# Set once another job has failed: nothing more is to be tried.
STOPPING = threading.Event()


class Broken(Exception):
    """The repository fails without any change, so that no change can be judged; or the run was stopped."""


class Unjudged(Exception):
    """The prover gave no verdict on a change."""


def stop(process):
    """Ends a process that this script started, with its children."""
    os.killpg(process.pid, signal.SIGKILL)
    process.wait()


def run(words, folder, seconds, scratch, ended=None):
    """Runs a command in a folder of a scratch copy. Gives its exit status, None where it was stopped, and what it said.
    It is stopped after so many seconds, or once `ended` says so of what it has said."""
    env = dict(os.environ, TMPDIR=str(scratch / "tmp"))
    with tempfile.TemporaryFile(dir=scratch / "tmp") as said:
        process = subprocess.Popen(
            LIMITED + words, cwd=folder, env=env, stdout=said, stderr=subprocess.STDOUT, stdin=subprocess.DEVNULL,
            start_new_session=True,
        )
        started, pause = time.monotonic(), 0.05
        try:
            while process.poll() is None:
                time.sleep(pause)
                pause = min(pause * 1.5, 0.3)
                if time.monotonic() - started > seconds or (ended and ended(read(said))):
                    stop(process)
                    return None, read(said)
                if STOPPING.is_set():
                    raise Broken("stopped")
            return process.returncode, read(said)
        except BaseException:
            if process.poll() is None:
                stop(process)
            raise


def read(said):
    return os.pread(said.fileno(), os.fstat(said.fileno()).st_size, 0).decode("utf-8", "replace")


def verdict(status, said, crate):
    """What the prover said of a crate: None where it accepts it, the first error's place, or not compiled."""
    if status == 0 and re.search(r"^logic=proved", said, re.M):
        return None
    if status == 1 and re.search(r"^logic=not-proved", said, re.M):
        return refusal(said, crate)
    if status == 1 and "logic=" not in said and ERROR.search(said):
        return NOT_COMPILED
    raise Unjudged(f"`rt check` ended with status {status}")


def refusal(said, crate):
    """The file and the fact of the first error, passing over errors that only follow from another, and if there are
    others also over those of a proof that no longer fits the code."""
    errors = [(error["place"], " ".join(error["what"].split())) for error in ERROR.finditer(said)]
    own = [error for error in errors if not any(words in error[1] for words in FOLLOWS)]
    fitting = [error for error in own if not any(words in error[1] for words in UNFIT)]
    notes = [(note["place"], note["what"]) for note in NOTE.finditer(said)]
    first = fitting or own or notes or errors
    if not first:
        named = UNPROVED.search(said)
        return named[0] if named else "no place given"
    place, what = first[0]
    goal = GOAL.search(what)
    name = goal and (goal[1] or goal[2])
    shape = any(words in what for words in UNFIT)
    return f"{crate}/{place}" + (f" ({name})" if name else "") + (SHAPE if shape else "")


class Scratch:
    """A copy of the repository in which changes are tried, one at a time."""

    def __init__(self, root):
        self.folder = pathlib.Path(tempfile.mkdtemp(prefix="mutants-")).resolve()
        # `rt` runs programs as nobody, who has to reach this folder.
        self.folder.chmod(0o755)
        for part in root.iterdir():
            if part.name not in (".git", "target"):
                copy(part, self.folder / part.name)
        (self.folder / "tmp").mkdir(mode=0o755)
        self.needs = needs_of(self.folder / "crates.txt")
        self.proved, self.tested = set(), set()

    def remove(self):
        shutil.rmtree(self.folder, ignore_errors=True)

    def crate(self, name):
        return self.folder / "crates" / name

    def below(self, crate):
        """All crates below a crate, and itself, lowest first."""
        found, todo = set(), [crate]
        while todo:
            name = todo.pop()
            if name not in found:
                found.add(name)
                todo += self.needs[name]
        return [name for name in self.needs if name in found]

    def attempt(self, place, new):
        """What catches a change."""
        crate, file = place.unit.crate, self.folder / place.unit.file.where
        self.prove(crate.name)
        file.write_text(place.changed(new), encoding="utf-8")
        try:
            caught = self.check(crate.name)
            if caught:
                return caught
        finally:
            file.write_text(place.unit.file.text, encoding="utf-8")
        return self.confirm(crate, file, place.changed(new))

    def check(self, crate):
        """The verdict of the prover on one crate, over the crates below it as they are."""
        return verdict(*run(["rt", "check", "--jobs", "1"], self.crate(crate), PROVING, self.folder), crate)

    def prove(self, crate):
        """Sees that a crate is proved as it is. Its proofs are then at hand, and each change takes seconds."""
        if crate not in self.proved:
            if self.check(crate):
                raise Broken(f"{crate} is not proved as it is (`rt check` in crates/{crate})")
            self.proved.add(crate)

    def confirm(self, crate, file, text):
        """What catches a change that is proved in its own crate: the proofs of the crates above, up to the program, or
        the program's tests."""
        program = crate.name if crate.is_program else TESTED
        if program not in self.tested:
            if self.test(program, crate.name) != NOTHING:
                raise Broken(f"{program} fails its own tests as it is")
            self.tested.add(program)
        above = self.above(program, crate.name)
        before = file.read_text(encoding="utf-8")
        saved = self.save(above)
        file.write_text(text, encoding="utf-8")
        try:
            return self.test(program, crate.name)
        finally:
            file.write_text(before, encoding="utf-8")
            self.restore(saved, above)

    def above(self, program, crate):
        """A crate and those above it, up to a program, lowest first."""
        return [name for name in self.below(program) if crate in self.below(name)]

    def test(self, program, crate):
        """What catches a change in a crate: a proof of a crate above it, or a test of the program. Only one program has
        the differential test."""
        for name in self.above(program, crate):
            if caught := self.check(name):
                return caught
        caught = self.play(program)
        if caught == NOTHING and program == TESTED:
            return self.differ()
        return caught

    def play(self, program):
        """Builds a program, and compares what it writes for its recorded input with its recorded output."""
        began = []

        def hangs(said):
            if not began and f"running out/{program}" in said:
                began.append(time.monotonic())
            return bool(began) and time.monotonic() - began[0] > RUNNING

        status, said = run(["rt", "run", "--jobs", "1"], self.crate(program), PROVING, self.folder, hangs)
        if began and status is None:
            return RECORDED
        built = self.crate(program) / BUILT / program
        if f"running out/{program}" not in said or not built.exists():
            raise Unjudged(f"`rt run` in crates/{program} ended with status {status}")
        recorded = {name: self.crate(program) / name for name in ("stdin", "stdout")}
        given = recorded["stdin"].read_bytes() if recorded["stdin"].exists() else b""
        try:
            done = subprocess.run(LIMITED + [built], input=given, capture_output=True, timeout=RUNNING)
        except subprocess.TimeoutExpired:
            return RECORDED
        wanted = recorded["stdout"].read_bytes() if recorded["stdout"].exists() else b""
        return NOTHING if (done.returncode, done.stdout) == (0, wanted) else RECORDED

    def differ(self):
        status, _ = run([".ci/differential"], self.folder, TESTING, self.folder)
        return NOTHING if status == 0 else DIFFERENTIAL

    def save(self, crates):
        """Keeps what the checks of these crates have kept."""
        saved = self.folder / "saved"
        for crate in crates:
            copy(self.crate(crate) / BUILT, saved / crate)
        return saved

    def restore(self, saved, crates):
        for crate in crates:
            shutil.rmtree(self.crate(crate) / BUILT, ignore_errors=True)
            if (saved / crate).exists():
                (saved / crate).rename(self.crate(crate) / BUILT)
        shutil.rmtree(saved)


def needs_of(path):
    """The crates of crates.txt in its order, each with the crates that its files name."""
    text = path.read_text(encoding="utf-8")
    return {name: names.split() for name, names in re.findall(r"^(\w+):(.*)$", text, re.M)}


def copy(start, end):
    """Copies a file or a folder, if it is there."""
    end.parent.mkdir(parents=True, exist_ok=True)
    if start.is_dir():
        shutil.copytree(start, end, symlinks=True)
    elif start.exists():
        shutil.copy2(start, end)
