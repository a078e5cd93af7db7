"""The view `check`: whether a whole trace adds up, with its records where it has some."""
from laws import adds_up
from tables import plural

OWN = {}


def show_trace(trace, program, arguments):
    sums = adds_up(trace, states=bool(trace.start)).sums
    total = {it: sums.total("attempts", it) for it in ("committed", "violated", "open")}
    done = sums.total("instructions", "committed"), sums.total("instructions", "lost")
    yield (f"adds up: {plural(sums.events, 'event')}; {plural(sum(total.values()), 'attempt')}, {total['committed']} committed, "
           f"{total['violated']} violated, {total['open']} open; {plural(done[0], 'instruction')} committed, {done[1]} lost")
