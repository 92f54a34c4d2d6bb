"""What every command here does alike: reads all of its input, writes all of its output, says what failed. Needs Python 3.8."""

import sys

NEEDED = (3, 8)
if sys.version_info < NEEDED:  # tested before anything is imported that an older Python does not have
    found = (sys.argv[0].rpartition("/")[2],) + NEEDED + tuple(sys.version_info[:2])
    sys.exit("%s needs Python %d.%d or newer, and this is Python %d.%d" % found)

import os  # noqa: E402
import select  # noqa: E402

PORTION = 65536  # bytes asked for at once
INTERRUPTED = 130  # the status of a command that is stopped by hand, as a shell gives it


def complain(words):
    """Says on standard error what failed, where there is one."""
    if sys.stderr is not None:
        try:
            print(words, file=sys.stderr, flush=True)
        except OSError:
            pass  # nobody is left to be told


def say_failure(wrong, name="input"):
    """What an OSError says, with the file that it is about."""
    return f"{wrong.filename or name}: {wrong.strerror or wrong}"


def read_all(descriptor):
    """All bytes up to the end, in whatever portions they come; a read that has nothing yet waits."""
    portions = []
    while True:
        try:
            portion = os.read(descriptor, PORTION)
        except BlockingIOError:
            select.select([descriptor], [], [])
            continue
        if not portion:
            return b"".join(portions)
        portions.append(portion)


def read_input(name):
    """The whole of a file, or of standard input for '-'."""
    if name != "-":
        with open(name, "rb") as file:
            return file.read()
    if sys.stdin is None:
        raise OSError("standard input is closed")
    try:
        return read_all(sys.stdin.fileno())
    except OSError as wrong:
        wrong.filename = "standard input"
        raise


def write_all(descriptor, data):
    """Writes all bytes, in whatever portions they are taken."""
    rest = memoryview(data)
    while rest:
        try:
            rest = rest[os.write(descriptor, rest) :]
        except BlockingIOError:
            select.select([], [descriptor], [])


def write_output(data):
    """Writes bytes to standard output. The exit status: 1 when they cannot all be written."""
    try:
        if sys.stdout is None:
            raise OSError("it is closed")
        sys.stdout.flush()
        write_all(sys.stdout.fileno(), data)
        return 0
    except BrokenPipeError:
        return 1  # whoever read has enough, and is told nothing
    except OSError as wrong:
        complain(f"standard output: {wrong.strerror or wrong}")
        return 1


def flush_output():
    """Writes what is buffered still. Whether that went well; if not, it must not be tried, and complained of, at exit."""
    try:
        if sys.stdout is not None:
            sys.stdout.flush()
        return True
    except OSError:
        os.dup2(os.open(os.devnull, os.O_WRONLY), sys.stdout.fileno())
        return False


def run(main):
    """Runs a command and ends with its status."""
    try:
        status = main()
    except KeyboardInterrupt:
        status = INTERRUPTED
    except SystemExit as end:  # of the reader of arguments, which may have printed a help
        status = end.code
    except BrokenPipeError:  # of that help
        status = 1
    sys.exit(status if flush_output() else status or 1)
