"""A temporary folder for the scripts in Python."""
import contextlib
import os
import shutil
import signal
import sys
import tempfile
import time

SIGNALS = {signal.SIGINT, signal.SIGTERM, signal.SIGHUP}
# A script whose reader has closed the pipe ends without a traceback; while there is a folder, `folder` removes it first.
signal.signal(signal.SIGPIPE, signal.SIG_DFL)


def _make(where):
    """Returns a new folder, in which a file was written. Ends the script with 12 if there is none."""
    name = ""
    try:
        name = tempfile.mkdtemp(dir=where)
        with open(f"{name}/full", "w", encoding="utf-8") as file:
            file.write(".")
        os.remove(f"{name}/full")
        return name
    except OSError as error:
        shutil.rmtree(name, ignore_errors=True)
        print(f"{os.path.basename(sys.argv[0])}: no temporary folder can be made in {where}: {error.strerror}", file=sys.stderr)
        sys.exit(12)


def _remove(name):
    """Removes a folder, in which a program that was just ended may still write."""
    for _ in range(50):
        shutil.rmtree(name, ignore_errors=True)
        if not os.path.exists(name):
            return
        time.sleep(0.1)


@contextlib.contextmanager
def folder():
    """Returns the name of a temporary folder, which is removed at the end, also on a signal and on a closed pipe. What the script starts makes
    its temporary files there."""
    for number in SIGNALS:
        if signal.getsignal(number) != signal.SIG_IGN:
            signal.signal(number, lambda number, _: sys.exit(128 + number))
    signal.signal(signal.SIGPIPE, signal.SIG_IGN)
    signal.pthread_sigmask(signal.SIG_BLOCK, SIGNALS)
    name = _make(os.environ.get("TMPDIR") or "/tmp")
    try:
        signal.pthread_sigmask(signal.SIG_UNBLOCK, SIGNALS)
        os.environ["TMPDIR"] = name
        yield name
        sys.stdout.flush()
    except BrokenPipeError:
        os.dup2(os.open(os.devnull, os.O_WRONLY), sys.stdout.fileno())
        sys.exit(128 + signal.SIGPIPE)
    finally:
        _remove(name)
    signal.signal(signal.SIGPIPE, signal.SIG_DFL)
