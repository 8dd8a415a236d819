#!/usr/bin/env python3
"""Runs a command from an interactive shell at a terminal, stops it by Ctrl-Z when it asks, goes on by fg, and types an answer.

usage: stopped_at_terminal.py SHELL COMMAND

SHELL and COMMAND are one argument each. Ends with 0 where the command asked, stopped, ended after the answer, and the echo was off
whenever it asked; what was typed is nowhere on the terminal.
"""

import os
import pty
import select
import sys
import termios
import time

ANSWER = b"typed-secret"


class Terminal:
    def __init__(self, words):
        self.end, self.terminal = pty.openpty()
        self.shown = b""
        self.child = os.fork()
        if self.child == 0:
            os.setsid()
            os.close(self.end)
            os.close(os.open(os.ttyname(self.terminal), os.O_RDWR))  # the first terminal that is opened is the session's
            for descriptor in (0, 1, 2):
                os.dup2(self.terminal, descriptor)
            os.execvpe(words[0], words, {**os.environ, "PS1": "READY> ", "ENV": ""})

    def type(self, octets, awaited):
        """Types, and tells whether the terminal then shows what is awaited."""
        before = len(self.shown)
        os.write(self.end, octets)
        return self.shows(awaited, before)

    def shows(self, awaited, before=0):
        deadline = time.time() + 10
        while time.time() < deadline:
            ready, _, _ = select.select([self.end], [], [], 0.1)
            if ready:
                self.shown += os.read(self.end, 4096)
            if awaited in self.shown[before:]:
                return True
        return False

    def has_echo(self):
        time.sleep(0.3)  # what is shown first may be the question, and the echo goes then
        return bool(termios.tcgetattr(self.terminal)[3] & termios.ECHO)


def main():
    shell, command = sys.argv[1:]
    terminal = Terminal(shell.split())
    ready = terminal.shows(b"READY> ")
    asked = terminal.type(command.encode() + b"\n", b": ") and not terminal.has_echo()
    stopped = terminal.type(b"\x1a", b"READY> ")
    hidden = terminal.type(b"fg\n", b"\n") and not terminal.has_echo()
    ended = terminal.type(ANSWER + b"\n", b"READY> ")
    shown = ANSWER in terminal.shown
    os.kill(terminal.child, 9)
    os.waitpid(terminal.child, 0)
    print(terminal.shown.decode(errors="replace"))
    print(f"ready {ready}, asked {asked}, stopped {stopped}, hidden {hidden}, ended {ended}, shown {shown}")
    sys.exit(0 if ready and asked and stopped and hidden and ended and not shown else 1)


main()
