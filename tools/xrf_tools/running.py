"""Programs that run beside each other, each a group of processes that is ended as a whole."""

from __future__ import annotations

import os
import signal
import subprocess
import threading


class Ended(Exception):
    """No run is begun any more."""


class Running:
    """The runs that go on."""

    def __init__(self) -> None:
        self.lock = threading.Lock()
        self.processes: set[subprocess.Popen[bytes]] = set()
        self.is_over = False

    def run(self, command: list[str], data: bytes, seconds: float) -> tuple[bytes, int]:
        """What a command writes of an input, and its status; TimeoutExpired where it takes longer."""
        with self.begin(command) as process:
            try:
                output, _ = process.communicate(data, timeout=seconds)
            except BaseException:
                end(process)
                raise
            finally:
                self.processes.discard(process)
        return output, process.returncode

    def begin(self, command: list[str]) -> subprocess.Popen[bytes]:
        with self.lock:
            if self.is_over:
                raise Ended
            process = subprocess.Popen(command, stdin=subprocess.PIPE, stdout=subprocess.PIPE, stderr=subprocess.DEVNULL,
                                       start_new_session=True)
            self.processes.add(process)
        return process

    def end_all(self) -> None:
        """Ends each run with all processes of its group, and lets none begin."""
        with self.lock:
            self.is_over = True
            for process in list(self.processes):
                end(process)


def end(process: subprocess.Popen[bytes]) -> None:
    try:
        os.killpg(process.pid, signal.SIGKILL)
    except ProcessLookupError:
        pass
