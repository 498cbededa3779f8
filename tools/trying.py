"""Runs programs of the repository without proof, with 'rt try'."""

import re
import shutil
import subprocess
from collections.abc import Iterator
from contextlib import contextmanager
from pathlib import Path
from tempfile import TemporaryDirectory

from complaint import Complaint

ROOT = Path(__file__).resolve().parent.parent

# What 'rt try' says at its end if the program ended with status 0.
ENDED = re.compile(r"^run=ended status=0 .*\n\Z", re.MULTILINE)

# The exit status of 'rt try', and what it says at its end, if the compiler rejects the code.
REJECTED = 1
NOT_RUN = "run=none proved=no\n"

# In seconds. 'rt try' bounds the time of the program, and not that of the compiler.
TIME_LIMIT = 600


class DoesNotCompile(Complaint):
    """A complaint with the compiler's message about the code."""

    def __init__(self, message: str) -> None:
        super().__init__(1, f"the code does not compile:\n{message}")


def copy_code(copy: Path) -> None:
    """Copies what 'rt try' needs: code and inputs, without definitions, proofs and rt's output."""
    no_code = shutil.ignore_patterns("specs", "proofs", "must-fail", "out")
    shutil.copytree(ROOT / "crates", copy / "crates", ignore=no_code)
    shutil.copy(ROOT / "crates.txt", copy)


@contextmanager
def copied_code() -> Iterator[Path]:
    """Gives a copy of the code, which is removed afterwards."""
    with TemporaryDirectory() as name:
        copy = Path(name).resolve()
        copy_code(copy)
        yield copy


def try_program(root: Path, program: str, octets: bytes) -> tuple[int, bytes, str]:
    """Runs a program with 'rt try', which bounds the program's time and its output.

    Returns the exit status of rt, what the program writes when it reads these octets, and what rt
    says.
    """
    folder = root / "crates" / program
    try:
        done = subprocess.run(
            ["rt", "try"],
            cwd=folder,
            input=octets,
            capture_output=True,
            timeout=TIME_LIMIT,
            check=False,
        )
    except subprocess.TimeoutExpired:
        raise Complaint(1, f"'rt try' did not end within {TIME_LIMIT} seconds") from None
    except OSError as error:
        raise Complaint(1, f"rt cannot be run: {error.strerror}") from None
    return done.returncode, done.stdout, done.stderr.decode("utf-8", "replace")


def compiler_message(root: Path, program: str, said: str) -> str:
    """Returns what the compiler says, with paths from the root.

    It names the files of the program's own crate from the crate's folder, and others by their full
    paths.
    """
    message = said.removesuffix(NOT_RUN).rstrip().replace(f"{root}/", "")
    return re.sub(r"(?m)^src/", f"crates/{program}/src/", message)


def written_by(root: Path, program: str, octets: bytes) -> bytes:
    """Returns what a program writes when it reads these octets."""
    status, written, said = try_program(root, program, octets)
    if ENDED.search(said):
        return written
    if status == REJECTED and said.endswith(NOT_RUN):
        raise DoesNotCompile(compiler_message(root, program, said))
    raise Complaint(1, f"{program} was not run to its end:\n{said.rstrip()}")


def output_in(root: Path, program: str) -> str:
    """Returns what a program writes on its own input, the file 'stdin' of its crate, if any."""
    stdin = root / "crates" / program / "stdin"
    octets = stdin.read_bytes() if stdin.is_file() else b""
    return written_by(root, program, octets).decode("utf-8", "replace")


def bench_output_in(root: Path, octets: bytes) -> bytes:
    """Returns what the bench program prints when it reads these octets."""
    return written_by(root, "bench", octets)
