"""What the benchmarks share: other solvers from Debian, our programs built, and runs timed."""

import os
import shutil
import signal
import subprocess
import sys
import tempfile
import threading
import time
from pathlib import Path

ROOT = Path(__file__).resolve().parent.parent


def install(*names):
    """Installs those of Debian's packages, named as their commands, that are missing."""
    missing = [name for name in names if shutil.which(name) is None]
    if not missing:
        return
    if os.geteuid() != 0:
        sys.exit(f"run this first: sudo apt-get install {' '.join(missing)}")
    subprocess.run(["apt-get", "install", "-y", *missing], check=True)


def build(library, program):
    """Builds the library if it is missing or older than the code, and the program over it."""
    archive = ROOT / "target" / "staticlib" / f"lib{library}.a"
    code = [path for path in (ROOT / "crates").rglob("*") if path.suffix in (".rt", ".antt")]
    newest = max(path.stat().st_mtime for path in code)
    if not archive.is_file() or archive.stat().st_mtime < newest:
        subprocess.run(["tools/staticlib", library], cwd=ROOT, check=True)
    folder = ROOT / "bench" / program
    cargo = ["cargo", "build", "--quiet", "--release", "--manifest-path"]
    subprocess.run([*cargo, folder / "Cargo.toml"], check=True)
    return folder / "target" / "release" / program


class Run:
    """A process that was run on some input: its times in seconds, and what came of it.

    `late` says that it was stopped at the limit of time on the clock. Then `resident` is the
    most memory that it had, in kilobytes.
    """

    def __init__(self, command, limit, given=b""):
        self.late = False
        self.resident = None
        with tempfile.TemporaryFile() as stdin, tempfile.TemporaryFile() as stdout:
            stdin.write(given)
            stdin.seek(0)
            start = time.monotonic()
            process = subprocess.Popen(
                command, stdin=stdin, stdout=stdout, stderr=subprocess.PIPE
            )
            timer = threading.Timer(limit, self.stop, [process])
            timer.start()
            self.errors = process.stderr.read().decode(errors="replace").strip()
            _, status, usage = os.wait4(process.pid, 0)
            self.wall = time.monotonic() - start
            timer.cancel()
            self.code = process.returncode = os.waitstatus_to_exitcode(status)
            stdout.seek(0)
            self.output = stdout.read().decode()
        self.user = usage.ru_utime
        self.both = usage.ru_utime + usage.ru_stime

    def stop(self, process):
        self.late = True
        try:
            status = Path(f"/proc/{process.pid}/status").read_text()
            os.kill(process.pid, signal.SIGKILL)
        except (FileNotFoundError, ProcessLookupError):
            return
        peaks = [line for line in status.splitlines() if line.startswith("VmHWM:")]
        if peaks:
            self.resident = int(peaks[0].split()[1])
