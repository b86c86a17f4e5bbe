"""What the tests of the programs share: where the programs are, how one is run, how two things are compared, and how a
list of tests is gone through. Each test is a function whose first line says what it tests. Every wait has a limit."""
import signal
import subprocess
import sys
from pathlib import Path

ROOT = Path(__file__).resolve().parent.parent
SETTLE = ROOT / "crates/settle/out/settle"  # where `rt ci` and `rt run` leave the program that they proved
KEEP = ROOT / "host/keep"
LIMIT = 60  # seconds for any one program
TEST_LIMIT = 300  # seconds for any one test


def same(what, got, expected):
    if got != expected:
        raise AssertionError(f"{what}: got {shown(got)}, expected {shown(expected)}")


def has(what, got, part):
    if part not in got:
        raise AssertionError(f"{what}: {shown(part)} is not in {shown(got)}")


def shown(value):
    text = repr(value)
    return text if len(text) < 400 else f"{text[:200]} ... {text[-200:]}"


def run(*words, **options):
    """Runs a program to its end; what it wrote and said are bytes."""
    options = {"stdout": subprocess.PIPE, "stderr": subprocess.PIPE, "timeout": LIMIT} | options
    return subprocess.run(words, **options)


def answered(journal):
    """What settle writes for a journal. It must say nothing on standard error and end well."""
    done = run(SETTLE, input=journal)
    same("what settle says on standard error", done.stderr, b"")
    same("the exit status", done.returncode, 0)
    return done.stdout


def answers_to(journal):
    """The answers of settle to a journal of whole lines, without its line `end`."""
    text = answered(journal)
    return text[:text.rindex(b"end ")]


def preloaded(folder, source):
    """Builds a library of Rust that is loaded ahead of the C library, and returns its name."""
    library = Path(folder) / (Path(source).stem + ".so")
    words = ["rustc", "-O", "--edition", "2021", "--crate-type", "cdylib", "-o", library, ROOT / source]
    subprocess.run(words, check=True, timeout=LIMIT)
    return library


def out_of_time(_signal, _frame):
    raise TimeoutError(f"it did not end within {TEST_LIMIT} seconds")


def notices(compare, *arguments):
    """A negative control: a comparison that is given an altered answer must fail."""
    try:
        compare(*arguments)
    except AssertionError:
        return
    raise RuntimeError(f"{compare.__name__} does not notice an altered answer")


def failures(tests):
    """The tests that fail, each with its error."""
    failed = []
    for test in tests:
        try:
            signal.alarm(TEST_LIMIT)
            test()
        except Exception as error:
            failed.append((test, error))
    signal.alarm(0)
    return failed


def fails():
    """A test that fails."""
    same("one", 1, 2)


def try_all(name, tests, tried):
    """Goes through all tests, and ends with status 1 if one fails. First it sees that a test can fail."""
    signal.signal(signal.SIGALRM, out_of_time)
    if len(failures([fails])) != 1:
        sys.exit(f"{name}: a test that fails is not noticed")
    failed = failures(tests)
    for test, error in failed:
        print(f"{name}: {test.__name__}: {test.__doc__}\n  {type(error).__name__}: {error}", file=sys.stderr)
    if failed:
        sys.exit(1)
    print(f"{name}: {len(tests)} tests passed: {tried}", flush=True)
