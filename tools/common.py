"""What the scripts here share: the root, words of the command line, and rt."""
import importlib.machinery
import importlib.util
import os
import re
import shutil
import signal
import subprocess
import sys

TOP = os.path.dirname(os.path.dirname(os.path.abspath(__file__)))
sys.dont_write_bytecode = True
signal.signal(signal.SIGPIPE, signal.SIG_DFL)  # output into head and the like


def fail(why):
    sys.exit(f"{os.path.basename(sys.argv[0])}: {why}")


def words(usage, least, flags=()):
    """The words of the command line and the flags among them; with -h, or with too few words, the usage."""
    given = sys.argv[1:]
    if "-h" in given or "--help" in given:
        print(usage.strip())
        sys.exit(0)
    plain = [w for w in given if not w.startswith("--")]
    odd = [w for w in given if w.startswith("--") and w not in flags]
    if odd or len(plain) < least:
        fail(f"{'no flag ' + odd[0] if odd else 'too few words'}; usage: {usage.strip().splitlines()[0]}")
    return plain, {w for w in given if w.startswith("--")}


def dependencies():
    """Of each crate of crates.txt, in its order, what it lists."""
    with open(f"{TOP}/crates.txt") as f:
        rows = (line.split("#")[0].partition(":") for line in f)
        return {head.split()[0]: rest.split() for head, _, rest in rows if head.strip()}


def known(crate):
    """The crate's folder; an error if crates.txt does not list it."""
    if crate not in dependencies():
        fail(f"crates.txt lists no crate {crate}")
    return f"{TOP}/crates/{crate}"


def rt(crate, *args):
    """Runs rt in a crate's folder: exit code, and what it said, paths from that folder."""
    if not shutil.which("rt"):
        fail("rt is not in PATH")
    folder = f"{TOP}/crates/{crate}"
    run = subprocess.run(["rt", *args], cwd=folder, stdout=subprocess.PIPE, stderr=subprocess.STDOUT, text=True, errors="replace")
    return run.returncode, run.stdout.replace(f"{os.path.realpath(folder)}/", "").replace(f"{folder}/", "")


def kit():
    """The toolchain's folder, as rt finds it."""
    return os.path.dirname(os.path.dirname(os.path.realpath(shutil.which("rt") or "rt")))


def ci_edits():
    """.ci/edits as a module."""
    loader = importlib.machinery.SourceFileLoader("edits", f"{TOP}/.ci/edits")
    module = importlib.util.module_from_spec(importlib.util.spec_from_loader("edits", loader))
    loader.exec_module(module)
    return module


def short_names(text):
    """antt's words with the modules of a repository's names left out."""
    return re.sub(r"Rattle\.\w+\.(?:specs|proofs)\.(?:[\w+]+\.)*", "", text)
