#!/usr/bin/env python3
"""Looks at a run: reads a trace, or makes one by running the program, and shows it in one of the views. docs/LOOK.md has a page on them.
One of the views, `consoles`, reads the text of `count --consoles` in its place.

    look VIEW [OPTION]... [TRACE | IMAGE... | SCHEDULE IMAGE...]
"""
import importlib
import os
import sys

sys.dont_write_bytecode = True
if sys.version_info < (3, 10):
    print("look: it needs Python 3.10", file=sys.stderr)
    sys.exit(2)
from arguments import Arguments, Refused, open_source
from run import Run
from trace import Fault

VIEWS = {
    "timeline": "a row a core, with attempts that committed and that were violated",
    "chart": "the messages between nodes, one under another, with what each caused",
    "lines": "the lines of memory that cost most, and what lies in them",
    "blame": "which load, at which source line, cost how many instructions",
    "conflicts": "who violated whom",
    "waits": "how long each TID waited for what",
    "commits": "each committed transaction, instruction by instruction",
    "console": "what the committed transactions printed",
    "consoles": "the same of a run of any length, by `count --consoles`",
    "span": "the longest path through the run, in a stated model of time",
    "svg": "the timeline as a picture",
    "perfetto": "the run as Trace Event JSON, for Perfetto and chrome://tracing",
    "page": "one HTML file with all of it, to step through and to search",
    "check": "whether a whole trace adds up",
}
USAGE = """Usage: {name} look VIEW [OPTION]... [TRACE | IMAGE... | SCHEDULE IMAGE...]

Shows a run: that of a trace (a file, or standard input), or one that the program makes now, of images or of a schedule with its images,
with the options of `trace` (--cores, --dirs, --sets, --ways, --base, --ram, --steps, --seed, --raw).

{views}

{name} look VIEW --help says more of a view, with its options. With --elf FILE a trace has names, source lines and instructions;
where images are run they are there without it.

The status is 0, or 2 with a line that says what is wrong and where; where the program refuses a run it is the program's.
"""


OPTIONS = {
    "elf": "names, source lines and instructions are of this program (more than once for several)",
    "from": "events before this one aren't shown",
    "to": "only events before this one are shown",
    "width": "the width, in characters; of a picture in pixels",
    "colour": "whether to colour: auto is on a terminal, and not where NO_COLOR is set",
    "top": "only so many rows",
    "dot": "a graph for Graphviz in place of the tables",
    "tid": "only this transaction",
    "order": "by core, or in the order of commits",
    "mixed": "line by line in the order of commits, each with its core",
    "resume": "the run goes on from this checkpoint, and what it prints from there on is shown",
    "hop": "what a message takes, where an event takes 1 (1)",
    "path": "the path too, event by event",
    "title": "the page's title",
}


def option_line(name, value):
    return f"  {f'--{name} {value or str()}'.rstrip():28} {OPTIONS[name]}"


def usage(name):
    views = "\n".join(f"  {view:10} {does}" for view, does in VIEWS.items())
    return USAGE.format(name=name, views=views)


def view_usage(name, view):
    module = importlib.import_module(view)
    words, own = getattr(module, "WORDS", None), module.OWN
    if not words:
        words, own = "[TRACE | IMAGE... | SCHEDULE IMAGE...]", {"elf": "FILE", **own}
    options = "\n".join(option_line(it, value) for it, value in own.items())
    return f"Usage: {name} look {view} [OPTION]... {words}\n\n{module.__doc__.strip()}\n\n{options}\n"


def lines_of(module, view, arguments):
    """What the view shows: of other texts than traces, of a trace as it comes, or of a run."""
    if hasattr(module, "show_words"):
        return module.show_words(arguments)
    trace, program = open_source(arguments, states=view in ("page", "check"), keep=view == "page")
    if hasattr(module, "show_trace"):
        return module.show_trace(trace, program, arguments)
    return module.show(Run(trace), program, arguments)


def look(words, name):
    if not words or words[0] in ("-h", "--help", "help"):
        sys.stdout.write(usage(name))
        return 0 if words else 2
    view = words[0]
    if view not in VIEWS:
        raise Fault(f"there is no view {view}; there are {', '.join(VIEWS)}")
    if "--help" in words or "-h" in words:
        sys.stdout.write(view_usage(name, view))
        return 0
    module = importlib.import_module(view)
    arguments = Arguments(words[1:], module.OWN)
    for line in lines_of(module, view, arguments):
        sys.stdout.write(line + "\n")
    sys.stdout.flush()
    return 0


def main(name, words):
    try:
        return look(words, name)
    except Fault as fault:
        print(f"look: {fault}", file=sys.stderr)
        return 2
    except Refused as refused:
        return refused.status
    except OSError as fault:
        os.dup2(os.open(os.devnull, os.O_WRONLY), sys.stdout.fileno())
        if not isinstance(fault, BrokenPipeError):
            print(f"look: output: {fault.strerror}", file=sys.stderr)
        return 6


if __name__ == "__main__":
    sys.exit(main(os.environ.get("LOOK_NAME", "hoopoelarder"), sys.argv[1:]))
