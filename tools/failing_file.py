#!/usr/bin/env python3
"""tools/failing_file.py PROGRAM FILE: starts PROGRAM on a file that fails after the bytes of FILE were read, and forwards its output.

That file is a terminal. This script writes the bytes to the terminal's other end, waits until they were read, and closes that end. The next
read then fails. The status is that of the program, or 9 if the bytes were not read within 30 seconds.
"""

import fcntl
import os
import struct
import subprocess
import sys
import termios
import time
import tty

SECONDS = 30
STEP = 0.01
NOT_READ = 9


def unread(terminal):
    """Returns the number of bytes that the terminal holds."""
    return struct.unpack("i", fcntl.ioctl(terminal, termios.FIONREAD, bytes(4)))[0]


def all_is_read(terminal):
    """Waits until the terminal holds no bytes. Reports whether that happened within the time limit."""
    end = time.monotonic() + SECONDS
    while unread(terminal) != 0 and time.monotonic() < end:
        time.sleep(STEP)
    return unread(terminal) == 0


def main():
    program, file = sys.argv[1:]
    ours, theirs = os.openpty()
    tty.setraw(theirs)
    with open(file, "rb") as module:
        os.write(ours, module.read())
    child = subprocess.Popen([program, os.ttyname(theirs)])
    is_read = all_is_read(theirs)
    os.close(theirs)
    os.close(ours)
    status = child.wait(timeout=SECONDS)
    sys.exit(status if is_read else NOT_READ)


main()
