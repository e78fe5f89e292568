"""How scripts end: by an exit status, and where they cannot go on, by one line that says why."""
import contextlib
import os
import signal
import sys

from proved import NAME, OUT, say

FAILED, USAGE, NO_INPUT, NO_TOOLCHAIN, NOT_BUILT, NOT_WRITABLE, INTERRUPTED, TERMINATED = 1, 64, 66, 69, 70, 73, 130, 143


class Stopped(Exception):
    """A run that cannot go on: its exit status, and why."""

    def __init__(self, status, why):
        super().__init__(why)
        self.status, self.why = status, why


def want_no_words(page):
    """Ends a script that was started with words: it takes none but --help, which prints its page."""
    if sys.argv[1:] in (["-h"], ["--help"]):
        print(page.strip())
        sys.exit(0)
    if sys.argv[1:]:
        raise Stopped(USAGE, f"it takes no words but --help: {' '.join(sys.argv[1:])}")


def stop(status, why):
    with contextlib.suppress(OSError):
        sys.stdout.flush()
        say(why)
    # (a thread may still wait for what a process that was ended has started)
    os._exit(status)


def terminated(*_):
    raise Stopped(TERMINATED, "ended by a signal")


def start(main):
    """Runs a script to its end, or says why it could not go on."""
    signal.signal(signal.SIGTERM, terminated)
    try:
        status = main()
    except Stopped as stopped:
        stop(stopped.status, stopped.why)
    except KeyboardInterrupt:
        stop(INTERRUPTED, "ended by Ctrl-C")
    except FileNotFoundError as error:
        hint = ": put the toolchain's folder of programs on the path" if error.filename == "rt" else ""
        stop(NO_TOOLCHAIN, f"{error.filename}: {error.strerror}{hint}")
    except OSError as error:
        stop(NOT_WRITABLE, f"{error.filename or OUT}: {error.strerror}")
    except Exception as error:
        stop(NOT_BUILT, repr(error))
    sys.exit(status)
