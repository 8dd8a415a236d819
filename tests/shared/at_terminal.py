#!/usr/bin/env python3
"""Runs a command at a terminal of its own, and types.

usage: at_terminal.py [--signal NAME] [--answer TEXT]... -- COMMAND ARGUMENT...

Each TEXT is typed as soon as the command asks, which ends in `: `. With a signal, this is sent to the command's whole process group at the
first question that has no answer left. Prints what the terminal showed, and then how its echo was; ends with the command's status, or
128 and the signal's number.
"""

import os
import pty
import select
import signal
import sys
import termios
import time


def words():
    answers, sent, rest = [], None, sys.argv[1:]
    while rest and rest[0] != "--":
        if rest[0] == "--answer":
            answers.append(rest[1])
        else:
            sent = getattr(signal, "SIG" + rest[1])
        rest = rest[2:]
    return answers, sent, rest[1:]


def has_echo(terminal):
    return bool(termios.tcgetattr(terminal)[3] & termios.ECHO)


def main():
    answers, sent, command = words()
    shell, terminal = pty.openpty()
    child = os.fork()
    if child == 0:
        os.setsid()
        os.close(shell)
        os.close(os.open(os.ttyname(terminal), os.O_RDWR))  # the first terminal that is opened is the session's
        for descriptor in (0, 1, 2):
            os.dup2(terminal, descriptor)
        for number in (signal.SIGINT, signal.SIGQUIT, signal.SIGHUP, signal.SIGTERM):
            signal.signal(number, signal.SIG_DFL)
        os.execvp(command[0], command)
    shown = b""
    asked = 0
    hidden = True
    deadline = time.time() + 60
    status = None
    while time.time() < deadline:
        ready, _, _ = select.select([shell], [], [], 0.1)
        if ready:
            shown += os.read(shell, 4096)
        if shown.count(b": ") > asked and shown.endswith(b": "):
            asked = shown.count(b": ")
            hidden = hidden and not has_echo(terminal)
            if answers:
                os.write(shell, os.fsencode(answers.pop(0)) + b"\n")
            elif sent:
                time.sleep(0.1)  # until the command reads: dash takes note of a signal before that only at the next one
                os.killpg(child, sent)
        if not ready:
            done, status = os.waitpid(child, os.WNOHANG)
            if done:
                break
            status = None
    else:
        os.killpg(child, signal.SIGKILL)
        _, status = os.waitpid(child, 0)
    sys.stdout.write(shown.decode(errors="replace").replace("\r\n", "\n"))
    print(f"echo {'off' if hidden else 'on'} while asking, {'on' if has_echo(terminal) else 'off'} afterwards")
    sys.exit(os.WEXITSTATUS(status) if os.WIFEXITED(status) else 128 + os.WTERMSIG(status))


main()
