#!/usr/bin/env python3
"""A login over the command passdb.

    from login import login
    if login("users", name, password): ...

or, as a program, with the password as the first line of the standard input: login.py FILE NAME. It ends with 0 where the password is that of
the name, with 1 where it is not, and with 2 where nothing can be said.
"""
import os
import re
import subprocess
import sys

PASSDB = os.environ.get("PASSDB", "passdb")

# The exit numbers of passdb that say no: a wrong password, an unknown name, and a password that can be nobody's.
REFUSED = (10, 11, 22)


def login(users, name, password):
    """Whether the password is that of the name in the file `users`, for any two texts.

    For an unknown name it takes as long as for a wrong password. Raises OSError where nothing can be said: passdb is not there, or the
    file cannot be read.
    """
    # What is no name is nobody's, and no argument; a password is one line.
    if not re.fullmatch("[a-z0-9-]{1,32}", name) or re.search("[\0\n\r]", password):
        return False
    try:
        line = password.encode() + b"\n"
    except UnicodeEncodeError:
        return False
    # After -- a name is never an option.
    run = subprocess.run([PASSDB, "check", "--even", "--password-stdin", "--", users, name], input=line,
                         stdout=subprocess.DEVNULL, stderr=subprocess.PIPE, check=False)
    if run.returncode == 0:
        return True
    if run.returncode in REFUSED:
        return False
    told = run.stderr.decode(errors="replace").strip()
    raise OSError(f"passdb ended with {run.returncode}: {told}")


def main():
    if len(sys.argv) != 3:
        print("login.py FILE NAME, with the password on the standard input", file=sys.stderr)
        return 2
    line = sys.stdin.buffer.readline().decode(errors="surrogateescape")
    try:
        return 0 if login(sys.argv[1], sys.argv[2], line.removesuffix("\n")) else 1
    except OSError as error:
        print(error, file=sys.stderr)
        return 2


if __name__ == "__main__":
    sys.exit(main())
