"""Runs a program: what goes wrong is told in lines, never by a traceback."""

import os
import sys

if sys.version_info < (3, 11):
    print("Python 3.11 or later is needed", file=sys.stderr)
    sys.exit(2)

from problems import Wrong, print_some


def run(main, failed=1):
    """Ends the process with the status that main gives; `failed` where it gives none."""
    sys.stdout = sys.stdout or open(os.devnull, "w")
    sys.stderr = sys.stderr or open(os.devnull, "w")
    for stream in (sys.stdout, sys.stderr):
        stream.reconfigure(encoding="utf-8", errors="backslashreplace")
    try:
        status = main()
        sys.stdout.flush()
    except Wrong as wrong:
        print_some(wrong.problems, sys.stderr)
        status = failed
    except OSError as error:    # standard output is closed or full
        if not isinstance(error, BrokenPipeError):
            print(f"standard output can't be written: {error.strerror}", file=sys.stderr)
        os.dup2(os.open(os.devnull, os.O_WRONLY), sys.stdout.fileno())
        status = failed
    except KeyboardInterrupt:
        status = 130
    sys.exit(status)
