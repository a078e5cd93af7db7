"""The view `page`: one HTML file with the run in it, that needs no network.

Its parts are in the folder page/: a frame, a style, and the scripts in the order of SCRIPTS. The trace is in it as it is, packed; so the
page shows what `trace` says, and what `state` says by its records.
"""
import base64
import html
import json
import os
import pathlib
import zlib

from facts import Did, Miss, Overflow

OWN = {"title": "TEXT"}
PARTS = pathlib.Path(os.path.realpath(__file__)).parent / "page"
SCRIPTS = ["trace", "attempts", "state", "words", "timeline", "nodes", "messages", "violation", "search", "main"]


def program_of(pcs, program):
    """What the page knows of the program, for these instructions."""
    program.find_sources(pcs)
    listed = sorted(set(pcs))
    sources = {f"{it:08x}": program.source(it) for it in listed if program.source(it)}
    return {
        "symbols": [[it.address, it.size, it.name, it.code] for it in program.symbols],
        "instructions": {f"{it:08x}": text for it in listed if (text := program.instruction(it))},
        "sources": sources,
        "texts": {program.source(it): program.source_text(it) for it in listed if program.source(it)},
    }


def part(name):
    return (PARTS / name).read_text(encoding="utf-8").strip("\n")


def page(text, program, title):
    """The page of a trace's text."""
    values = {
        "title": html.escape(title),
        "style": part("page.css"),
        "script": "\n\n".join(part(f"{it}.js") for it in SCRIPTS),
        "program": json.dumps(program, separators=(",", ":")).replace("</", "<\\/"),
        "trace": base64.b64encode(zlib.compress(text.encode("ascii"), 6)).decode("ascii"),
    }
    pieces = part("page.html").split("@")
    # the frame's pieces are texts and names in turn
    return "".join(values[it] if at % 2 else it for at, it in enumerate(pieces))


def show_trace(trace, program, arguments):
    pcs = set()
    for event in trace:
        for fact in event.facts:
            if type(fact) in (Did, Miss, Overflow):
                pcs.update((fact.pc, fact.pc + 4))
    title = arguments.given.get("title") or f"A run of {', '.join(pathlib.Path(name).name for name, _ in program.files) or 'a program'}"
    yield page("".join(trace.stream.lines), program_of(pcs, program), title)
