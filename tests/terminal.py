"""Run a program at a terminal, and see that one end of file ends it.

python3 tests/terminal.py PROGRAM [ARGUMENT..]

It is sent a line and one end of file (Ctrl-D at the beginning of a line: a
read of no bytes), and must end with status 0 within ten seconds.
"""

import os
import pty
import select
import signal
import sys
import time

SECONDS = 10


def ended(child, terminal):
    """Return the status of the child, or None where it does not end."""
    end = time.monotonic() + SECONDS
    while time.monotonic() < end:
        pid, status = os.waitpid(child, os.WNOHANG)
        if pid:
            return os.waitstatus_to_exitcode(status)
        # what it prints is read, so that it never waits for room
        if select.select([terminal], [], [], 0.05)[0]:
            try:
                os.read(terminal, 4096)
            except OSError:
                time.sleep(0.05)
    return None


def main():
    """Start the program, send it its input, and wait for its end."""
    child, terminal = pty.fork()
    if child == 0:
        os.execv(sys.argv[1], sys.argv[1:])
    status = None
    try:
        os.write(terminal, b'abc\n\x04')
        status = ended(child, terminal)
    finally:
        if status is None:
            os.kill(child, signal.SIGKILL)
            os.waitpid(child, 0)
    if status is None:
        sys.exit(f'still waits {SECONDS} seconds after one end of file')
    if status:
        sys.exit(f'ended with status {status}, or by that signal if below 0')


if __name__ == '__main__':
    main()
