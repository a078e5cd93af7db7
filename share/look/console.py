"""The view `console`: what the committed transactions printed, as text."""

OWN = {"order": "cores|commits"}


def printed(attempt):
    """The bytes of an attempt's console."""
    return bytes(it.value for _, it in attempt.did if it.what == "console")


def shown(data):
    """Bytes as text; what isn't printable is escaped."""
    text = data.decode("utf-8", "backslashreplace")
    return "".join(it if it.isprintable() or it == "\n" else f"\\x{ord(it):02x}" for it in text)


def show(run, program, arguments):
    if arguments.chosen("order", ["cores", "commits"]) == "commits":
        for it in run.commits:
            if data := printed(it):
                for line in shown(data).rstrip("\n").split("\n"):
                    yield f"TID {it.commit.tid} core {it.core}: {line}"
        return
    for core in range(run.settings.cores):
        own = sorted((it for it in run.commits if it.core == core), key=lambda it: it.last)
        if data := b"".join(printed(it) for it in own):
            yield f"core {core}:"
            yield from shown(data).rstrip("\n").split("\n")
