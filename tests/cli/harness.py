"""What the tests of the built program share: where it is, the bytes of inputs, whole runs, and the account of what failed."""
import pathlib
import subprocess

HERE = pathlib.Path(__file__).resolve().parent
ROOT = HERE.parent.parent
PROGRAM = ROOT / "crates/command/out/command"


def joined(text):
    """The bytes of a text, of a list of texts and [text, times] pairs, or of a file of examples/."""
    if isinstance(text, str):
        return text.encode("latin-1")
    if isinstance(text, dict):
        return (ROOT / "examples" / text["example"]).read_bytes()
    return b"".join(part.encode("latin-1") if isinstance(part, str) else part[0].encode("latin-1") * part[1] for part in text)


def ran(words, given):
    """How the program ends over a text: its status, its output and its complaint."""
    ended = subprocess.run([PROGRAM, *words], input=given, capture_output=True, text=True, timeout=60)
    return ended.returncode, ended.stdout, ended.stderr


def status(name, said, faults):
    """The status that a test ends with, once it has said what failed in it."""
    for fault in faults:
        print(f"FAILED {name}: {fault}")
    print(f"{name}: {said}, {len(faults)} failed")
    return 1 if faults else 0
