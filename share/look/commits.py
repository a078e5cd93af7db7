"""The view `commits`: each committed transaction, instruction by instruction, with what it loaded and stored."""
from tables import plural

OWN = {"tid": "N"}


def effect(did, program):
    """What an instruction did, in words."""
    at = program.name(did.address) if did.address is not None else ""
    if at and program.symbol(did.address):
        at += f" ({did.address:08x})"
    width = (did.size or 4) * 2
    return {
        "load": lambda: f"loads {at}: {did.value:0{width}x}",
        "store": lambda: f"stores {at}: {did.value:0{width}x}",
        "change": lambda: f"changes {at}: {did.old:08x} to {did.value:08x}",
        "console": lambda: f"prints {chr(did.value)!r}",
        "end": lambda: "ends the transaction",
        "halt": lambda: f"halts with {did.value}",
        "trap": lambda: f"traps: cause {did.value}",
    }.get(did.what, lambda: "")()


def show(run, program, arguments):
    program.find_sources(did.pc for it in run.commits for _, did in it.did)
    for it in run.commits:
        if arguments.number("tid", it.commit.tid) != it.commit.tid:
            continue
        earlier = f", after {plural(it.earlier, 'violation')}" if it.earlier else ""
        yield f"TID {it.commit.tid}, core {it.core}, {plural(it.commit.count, 'instruction')}, events {it.first} to {it.last}{earlier}"
        source = ""
        for _, did in it.did:
            if program.source(did.pc) != source:
                source = program.source(did.pc)
                if source:
                    yield f"  {source}: {program.source_text(did.pc)}".rstrip(": ")
            where = program.name(did.pc) if program.symbols else ""
            yield f"    {did.pc:08x} {where:<16} {program.instruction(did.pc):<24} {effect(did, program)}".rstrip()
        yield ""
