"""Small things that views share: tables, names of words, colours."""
import os
import sys

COLOURS = {"green": "32", "red": "31", "dim": "2", "bold": "1"}


def table(head, rows, left=()):
    """Lines of columns with two spaces between them; numbers stand right, the first column and those named in `left` at the left."""
    cells = [[str(it) for it in row] for row in [head, *rows]]
    widths = [max(len(row[at]) for row in cells) for at in range(len(head))]
    for row in cells:
        yield "  ".join(it.ljust(width) if not at or head[at] in left else it.rjust(width)
                        for at, (it, width) in enumerate(zip(row, widths))).rstrip()


def words_of(mask):
    """The words that a mask names: `word 0`, `words 0 and 3`."""
    names = [str(it) for it in range(8) if mask >> it & 1]
    return f"word {names[0]}" if len(names) == 1 else f"words {', '.join(names[:-1])} and {names[-1]}" if names else "no word"


def plural(count, what):
    return f"{count} {what}" + ("" if count == 1 else "s")


def has_colours(choice):
    """Whether to print with colours: on a terminal, unless NO_COLOR is set or the words say otherwise."""
    return choice == "always" or choice == "auto" and sys.stdout.isatty() and not os.environ.get("NO_COLOR")


def coloured(text, name, on):
    return f"\033[{COLOURS[name]}m{text}\033[0m" if on and name and text.strip() else text


def line_names(run, program, line):
    """The names of what lies in a line; its address where nothing is known."""
    address = run.settings.address(line)
    return ", ".join(program.names_in(address)) or f"{address:08x}"


def window(run, arguments):
    """The events that the view shows: from the first to before the second."""
    first = max(arguments.number("from", run.first), run.first)
    last = min(arguments.number("to", run.last), run.last)
    return first, max(first, last)
