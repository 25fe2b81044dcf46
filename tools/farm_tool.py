"""How a tool of this folder reads, writes and ends: whatever goes wrong is one line on standard error, and
a status.

    0  done                          4  a file or the input cannot be read
    1  what was read is faulty       5  the output cannot be written
    2  wrong words                   6  a configuration is bad
    3  out of memory                 7  nothing answers, or no answer can be read

Python's standard library alone.
"""
import argparse
import os
import sys

DONE, FAULTY, USAGE, MEMORY, READ, WRITE, CONFIG, LINK = range(8)
INTERRUPTED = 130
MOST_TOLD = 20


class Ends(Exception):
    """The tool ends with this status, and says this line."""

    def __init__(self, status, text):
        super().__init__(text)
        self.status = status


class Words(argparse.ArgumentParser):
    """The words of a tool, or of a line: a fault of them is raised, and --help is the tool's own text."""

    def __init__(self, doc=None):
        super().__init__(add_help=False, allow_abbrev=False)
        self.doc = doc

    def error(self, message):
        raise Ends(USAGE, message)

    def read(self, words):
        if "-h" in words or "--help" in words:
            write(self.doc.strip() + "\n")
            raise Ends(DONE, "")
        return self.parse_args(words)


def name_of_tool():
    return os.path.basename(sys.argv[0])


def tell(text):
    """One line on standard error; where that fails too there is nobody to tell."""
    try:
        print(f"{name_of_tool()}: {text}", file=sys.stderr, flush=True)
    except (OSError, AttributeError, ValueError):
        pass


def cause_of(fault):
    return fault.strerror or str(fault)


def read(name):
    """The bytes of a file, or of standard input where there is no name."""
    try:
        if name is None or name == "-":
            return sys.stdin.buffer.read()
        with open(name, "rb") as file:
            return file.read()
    except AttributeError:
        raise Ends(READ, "standard input: closed") from None
    except OSError as fault:
        raise Ends(READ, f"{name or 'standard input'}: {cause_of(fault)}") from None
    except ValueError as fault:
        raise Ends(READ, f"{name!r}: {fault}") from None


def lines_of(raw, name=None):
    """The lines of a text, without their ends; bytes that are no text are told with their line."""
    parts = raw.split(b"\n")
    if parts[-1] == b"":
        parts.pop()
    lines = []
    for number, part in enumerate(parts, 1):
        try:
            lines.append(part.decode())
        except UnicodeDecodeError:
            raise Ends(FAULTY, f"{name or 'standard input'}: line {number} is no text") from None
    return lines


def write(text):
    """Writes a text to standard output, whole."""
    raw = text.encode("utf-8", "surrogateescape")
    try:
        sys.stdout.buffer.write(raw)
        sys.stdout.buffer.flush()
    except AttributeError:
        raise Ends(WRITE, "standard output: closed") from None
    except OSError as fault:
        # What could not be written is not tried again at the end.
        os.dup2(os.open(os.devnull, os.O_WRONLY), 1)
        raise Ends(WRITE, f"standard output: {cause_of(fault)}") from None


def tell_unread(printed):
    """Tells the lines of a printed run that could not be read, the first of them one by one; the status
    says whether there are any."""
    for number, cause in printed.unread[:MOST_TOLD]:
        tell(f"line {number}: {cause}")
    if len(printed.unread) > MOST_TOLD:
        tell(f"and {len(printed.unread) - MOST_TOLD} more lines that are none of a printed run")
    return FAULTY if printed.unread else DONE


def run(main):
    """Runs the tool over its words, and ends the program."""
    try:
        status = main(sys.argv[1:])
    except Ends as end:
        status = end.status
        if str(end):
            more = f" ({name_of_tool()} --help tells the words)" if status == USAGE else ""
            tell(f"{end}{more}")
    except KeyboardInterrupt:
        status = INTERRUPTED
    except RecursionError:
        tell("what was read is nested too deep")
        status = FAULTY
    except MemoryError:
        tell("out of memory")
        status = MEMORY
    sys.exit(status)
