#!/usr/bin/env python3
"""Random faults against host/keep: `.ci/campaign.py FAULTS [SEED]`. It keeps random journals, and while lines are sent
it kills the keeper or its settle, lets a write, a sync or a rename fail, fills the disk, or ends the keeper at one of
these calls; after some faults the power fails too, and what was not synced is lost. After each fault the one who sends
looks into the journal and goes on after its last line. In the end the journal must have each line once, in order, the
answers must be those of an undisturbed run, and every answer that was given before a fault must be among them.

Some journals are sent by three clients of a socket at once. They mark their calls, and after a fault they look for the
mark before they send a call again."""
import collections
import contextlib
import os
import random
import shutil
import signal
import subprocess
import sys
import tempfile
import threading
import time
from pathlib import Path

from trying import KEEP, LIMIT, ROOT, SETTLE, answers_to, preloaded, run, same

sys.path.append(str(ROOT / "host"))
from talk import Talk

CALLS_HIT = 45  # the faults of the library come at one of the first so many calls
HOWS = ("kill", "half", "after", "error", "full")
NOT_THERE = 5  # the status of --find where the call is not in the journal
KILLS = ("keeper", "settle", "told")


def random_line(rng):
    """A line of a journal: mostly calls, of which many are accepted."""
    member, other = rng.sample(range(4), 2)
    number, day = rng.randrange(4), rng.randrange(2, 8)
    lines = [
        f"enter {member} {other} 0 10 1000000 {day}", f"enter {other} {member} 1 10 1000000 {day}",
        f"enter 1 2 {rng.randrange(2)} 10 1000000 {day}", f"deliver {number} {rng.randrange(1, 4)}",
        f"offer {number} 17 2 {rng.randrange(99000, 102000)}", f"cancel {number} {member}",
        f"withdraw {number} {member}", f"rate {day} {rng.randrange(102)}",
        f"close {rng.randrange(99000, 101000)} 1152 7", f"close 100000 1152 {number}", "again 1152 9",
        "close 0 1152 7", "close 100000 10 1152 7", "month 0 32 5", f"status {number}", f"account {member}",
        f"look {member}", "rules", "target 2027 2028 12 0", "", "# a comment", "#" + "x" * rng.randrange(3000),
        "no call", "rules\r", "\0\0", " # no comment",
    ]
    if rng.random() < 0.03:
        lines = ["target 2000 2000 4096 9", "look " + "0" * 60000, "#" + "y" * 70000, "z" * 66000]
    return rng.choice(lines).encode() + b"\n"


def random_journal(rng):
    lines = [random_line(rng) for _ in range(rng.randrange(20, 90))]
    return [b"rules\n", b"# a random journal\n", b"open 2 1 0\n", b"rate 2 10\n"] + lines


def is_comment(line):
    return line.startswith((b"#", b"\n"))


def answer_ends(lines):
    """The answers of an undisturbed run, and how many of their bytes answer the first n lines, for each n."""
    text = answers_to(b"".join(lines))
    ends = [0]
    for line in lines:
        end = ends[-1]
        if not is_comment(line):
            has_rows = line.startswith((b"close", b"again")) and text[end:end + 1] != b"?"
            end = text.index(b"\n", text.index(b"  kept", end) if has_rows else end) + 1
        ends.append(end)
    same("where the last answer ends", ends[-1], len(text))
    return text, ends


# ---- a disk that loses its power


class File:
    """How much of a file was written, and how much of that the disk has for sure."""

    def __init__(self, content=b""):
        self.content = content
        self.written = self.synced = len(content)
        self.holes = []  # What a sync failed to bring to the disk, no later sync will.

    def sync(self, is_done):
        if is_done:
            self.synced = self.written
        else:
            self.holes.append((self.synced, self.written))

    def left(self, rng):
        """What a disk may have of it after its power failed."""
        sure = bytearray(self.content[:self.synced])
        for start, end in self.holes:
            end = min(end, self.synced)
            if rng.random() < 0.7:
                sure[start:end] = bytes(end - start)
        lost = self.content[self.synced:self.written]
        kept = lost[:rng.choice([0, len(lost), rng.randrange(len(lost) + 1)])]
        return bytes(sure) + kept + bytes(rng.choice([0, 0, len(lost) - len(kept)]))


class Disk:
    """What a disk has of a folder, told by the trace of faults.rs. A name holds for sure once the folder was synced,
    and what is in a file once the file was."""

    def __init__(self, folder):
        self.folder = folder
        self.names = {}
        self.views = [{}]  # the names that the disk may have, the sure ones first

    def begin(self):
        """A run begins: what it replaces can only be read now."""
        self.names = {name: file for name, file in self.names.items() if not name.endswith(".new")}
        for name, file in self.names.items():
            file.content = (self.folder / name).read_bytes()

    def follow(self, trace):
        for line in trace.read_text().splitlines() if trace.exists() else []:
            what, *names, result = line.split(" ")
            if names == ["."]:
                self.views = [dict(self.names)] if result == "0" else self.views
                continue
            file = self.names.setdefault(names[0], File())
            if what == "write":
                file.written += max(0, int(result))
            elif what == "sync":
                file.sync(result == "0")
            elif result == "0":
                self.names[names[1]] = self.names.pop(names[0])
                self.views.append(dict(self.names))
        trace.unlink(missing_ok=True)

    def lose_power(self, rng):
        """Leaves in the folder what a disk may have after its power failed."""
        for name, file in self.names.items():
            path = self.folder / name
            file.content = path.read_bytes() if path.exists() else b""
        view = rng.choice(self.views)
        for path in self.folder.iterdir():
            if path.suffix != ".lock":
                path.unlink()
        self.names = {}
        for name, file in view.items():
            if not name.endswith(".new"):
                self.names[name] = File(file.left(rng))
                (self.folder / name).write_bytes(self.names[name].content)
        self.views = [dict(self.names)]


# ---- one client, on standard input


def with_fault(library, folder, trace, how, at):
    """The environment in which something happens at a call of a program, as faults.rs says."""
    return {**os.environ, "LD_PRELOAD": str(library), "FAULT_FOLDER": str(folder), "FAULT_TRACE": str(trace),
            "FAULT_HOW": how, "FAULT_AT": str(at)}


def settle_of(process):
    """The settle of a keeper, as soon as there is one; none if the keeper has ended."""
    children = Path(f"/proc/{process.pid}/task/{process.pid}/children")
    while process.poll() is None:
        if found := children.read_text().split():
            return [int(found[0])]
        time.sleep(0.005)
    return []


def kill(process, whom):
    """Kills a keeper or its settle, or tells the keeper to end."""
    for victim in settle_of(process) if whom == "settle" else [process.pid]:
        with contextlib.suppress(ProcessLookupError):
            os.kill(victim, signal.SIGTERM if whom == "told" else signal.SIGKILL)


class Trial:
    """A book in a folder of its own, kept under faults."""

    def __init__(self, rng, work, library, counts):
        self.rng = rng
        self.folder = Path(tempfile.mkdtemp(dir=work))
        self.outside = Path(tempfile.mkdtemp(dir=work))
        self.book = self.folder / "17"
        self.library = library
        self.counts = counts
        self.disk = Disk(self.folder)
        self.has_power = threading.Lock()  # Nobody looks into the files while the power fails.

    def remove(self):
        shutil.rmtree(self.folder)
        shutil.rmtree(self.outside)

    def start(self, how="", at=0, words=(), **options):
        self.disk.begin()
        words = [KEEP, self.book, "--settle", SETTLE, *words]
        environment = with_fault(self.library, self.folder, self.outside / "trace", how, at)
        return subprocess.Popen(words, env=environment, **options)

    def ended(self, process, fault):
        """A run has ended: what was written is followed, and then the power may fail."""
        status = process.wait(LIMIT)
        self.disk.follow(self.outside / "trace")
        if status != 0 or fault == "told":
            self.counts[fault] += 1
            if self.rng.random() < 0.5:
                self.counts["power"] += 1
                with self.has_power:
                    self.disk.lose_power(self.rng)
        return status

    def journal(self):
        path = self.book.with_suffix(".journal")
        return path.read_bytes() if path.exists() else b""


def feed(trial, process, text, whom):
    """Sends a text in random parts. In the middle of it, somebody may be killed."""
    rng = trial.rng
    size = rng.choice([50, 500, 5000, 50000])
    parts = [text[at:at + size] for at in range(0, len(text), size)] or [b""]
    last = rng.randrange(len(parts)) if whom else None
    try:
        for number, part in enumerate(parts):
            process.stdin.write(part)
            time.sleep(rng.choice([0, 0, 0.001, 0.003]))
            if number == last:
                time.sleep(rng.random() * 0.15)
                kill(process, whom)
        process.stdin.close()
    except BrokenPipeError:
        pass


def sent_alone(rng, work, library, counts, first):
    """One client sends a journal on standard input, and there are up to three faults. The first is given."""
    trial = Trial(rng, work, library, counts)
    lines = random_journal(rng)
    right, ends = answer_ends(lines)
    there, told = 0, 0  # the lines that the journal has, and the bytes of the answers that were given
    for fault in [first] + [rng.choice(HOWS + KILLS) for _ in range(rng.randrange(3))] + [""]:
        whom = fault if fault in KILLS else None
        output = trial.outside / "output"
        with open(output, "wb") as out, open(trial.outside / "said", "wb") as said:
            how = "" if whom else fault
            options = {"stdin": subprocess.PIPE, "stdout": out, "stderr": said, "bufsize": 0}
            process = trial.start(how, rng.randrange(1, CALLS_HIT) if how else 0, **options)
            feed(trial, process, b"".join(lines[there:]), whom)
            status = trial.ended(process, fault)
        given = b"".join(line for line in output.read_bytes().splitlines(keepends=True) if not line.startswith(b"!"))
        journal = trial.journal()
        whole = journal[:journal.rfind(b"\n") + 1]
        same("whether the journal is a beginning of what was sent", b"".join(lines).startswith(whole), True)
        same("whether the answers are right", right[ends[there]:].startswith(given), True)
        told = ends[there] + len(given) if given else told
        there = whole.count(b"\n")
        same("whether the journal has every line whose answer was given", told <= ends[there], True)
        if status == 0 and there == len(lines):
            break
    said = (trial.outside / "said").read_text()
    same(f"the exit status of the last run, which said {said}", status, 0)
    same("the journal", trial.journal(), b"".join(lines))
    same("the answers", trial.book.with_suffix(".answers").read_bytes(), right)
    trial.remove()


# ---- three clients, on a socket


class Sender(threading.Thread):
    """A client of the socket that marks its calls. Where it gets no answer it connects again, waits for the answer to a
    call of its own, and looks for its mark. Then it knows whether its call was done."""

    def __init__(self, trial, name, calls):
        super().__init__(daemon=True)
        self.trial = trial
        self.name = name
        self.calls = calls
        self.answers = []
        self.talk = None
        self.error = None

    def run(self):
        try:
            for number, call in enumerate(self.calls):
                self.answers.append(self.done(f"{self.name}-{number}", call))
        except Exception as error:
            self.error = error

    def done(self, mark, call):
        limit = time.monotonic() + LIMIT
        is_sure = True
        while time.monotonic() < limit:
            try:
                if self.talk is None:
                    self.talk = Talk(str(self.trial.outside / "socket"))
                    self.ask("rules")
                if not is_sure:
                    with self.trial.has_power:
                        found = run(KEEP, self.trial.book, "--find", mark)
                    if found.returncode == 0:
                        return found.stdout.split(b"\n", 1)[1]
                    same(f"the status of --find, which says {found.stderr}", found.returncode, NOT_THERE)
                is_sure = False
                self.talk.call(f"# {mark}")
                return self.ask(call)
            except (OSError, EOFError):
                self.talk = None
                time.sleep(0.02)
        raise TimeoutError(f"{mark} was not done")

    def ask(self, call):
        answer = "".join(self.talk.call(call))
        if answer.startswith("!"):
            raise EOFError(answer)
        return answer.encode()


def sent_together(rng, work, library, counts):
    """Three clients send calls at once, and the keeper and its settle are killed meanwhile."""
    trial = Trial(rng, work, library, counts)
    calls = ["status 0", "account 1", "close 100000 1152 7", "enter 1 2 0 10 1000000 9", "rules"]
    names = "room", "office", "treasury"
    senders = [Sender(trial, name, ["rate 2 10"] + [rng.choice(calls) for _ in range(24)]) for name in names]
    faults = [rng.choice(HOWS + ("keeper", "settle")) for _ in range(4)] + [""]
    for sender in senders:
        sender.start()
    for fault in faults:
        is_call = fault in HOWS
        at = rng.randrange(1, CALLS_HIT) if is_call else 0
        with open(trial.outside / "said", "wb") as said:
            words = ("--socket", trial.outside / "socket")
            process = trial.start(fault if is_call else "", at, words, stdin=subprocess.DEVNULL, stderr=said)
            limit = time.monotonic() + (0.1 + rng.random() * 0.3 if fault else LIMIT)
            while process.poll() is None and time.monotonic() < limit and (fault or not over(trial, senders)):
                time.sleep(0.01)
            if process.poll() is None:
                kill(process, "keeper" if is_call else fault or "told")
            status = trial.ended(process, fault)
    same(f"the exit status of the last run, which said {(trial.outside / 'said').read_text()}", status, 0)
    verify_together(trial, senders)
    trial.remove()


def over(trial, senders):
    """Whether the keeper has started, and all senders are through."""
    return b" lines were played again" in (trial.outside / "said").read_bytes() and \
        not any(sender.is_alive() for sender in senders)


def verify_together(trial, senders):
    lines = trial.journal().splitlines(keepends=True)
    right, ends = answer_ends(lines)
    same("the answers", trial.book.with_suffix(".answers").read_bytes(), right)
    for sender in senders:
        sender.join(LIMIT)
        if sender.error:
            raise sender.error
        begins = f"# {sender.name}-".encode()
        at = [number for number in range(1, len(lines))
              if lines[number - 1].startswith(begins) and not is_comment(lines[number])]
        marks = [int(lines[number - 1].split(b"-")[1]) for number in at]
        same(f"the marks of {sender.name}", marks, list(range(len(sender.calls))))
        same(f"the calls of {sender.name}", [lines[number].decode()[:-1] for number in at], sender.calls)
        same("its answers", [right[ends[number]:ends[number + 1]] for number in at], sender.answers)


def campaign(faults, seed):
    """Tries until so many faults have happened, and returns how many of each kind there were."""
    counts = collections.Counter()
    trials = 0
    with tempfile.TemporaryDirectory() as work:
        library = preloaded(work, ".ci/faults.rs")
        while sum(counts.values()) < faults:
            trials += 1
            rng = random.Random(f"{seed} {trials}")
            try:
                if trials % 10 == 0:
                    sent_together(rng, work, library, counts)
                else:
                    sent_alone(rng, work, library, counts, (HOWS + KILLS)[trials % 8])
            except Exception as error:
                raise AssertionError(f"trial {trials} of seed {seed}: {error}") from error
    return trials, counts


def main():
    faults, seed = (int(word) for word in (sys.argv[1:] + ["1"])[:2])
    trials, counts = campaign(faults, seed)
    print(f"{trials} journals, {sum(counts.values())} faults: nothing lost, nothing doubled, every answer right")
    for fault, count in sorted(counts.items()):
        print(f"  {fault}: {count}")


if __name__ == "__main__":
    main()
