"""The situations that a message begins in."""
from counting.beats import ARITHMETIC, CAPS, GIVEN, GROWS, LOGICAL, REPORTS


def on_channel_a(beat, link, others, width):
    block = beat.block
    holding = [other.held[block] for other in others]
    if beat.acquire:
        yield f"acquire-{GROWS[beat.param]}"
        if beat.param < 2 and link.held[block] != "N":
            yield "copy-dropped"
        contending = sum(block in other.acquiring for other in others)
        yield from ["contention"][: contending > 0]
        yield from ["three-contend"][: contending > 1]
        return
    if block in link.acquiring or block in link.releasing:
        yield "access-beside-transfer"
    if link.held[block] != "N":
        yield "access-of-held-block"
    if beat.opcode != 5:
        yield f"{['put', 'put', 'atomic', 'atomic', 'get'][beat.opcode]}-{2**beat.size}"
    if beat.opcode == 1:
        yield "mask-" + ("empty" if beat.mask == 0 else "full" if beat.mask == 2**width - 1 else "partial")
    if beat.opcode == 2:
        yield f"arithmetic-{ARITHMETIC[beat.param]}"
    if beat.opcode == 3:
        yield f"logical-{LOGICAL[beat.param]}"
    if "T" in holding and beat.opcode != 5:
        yield "read-of-owned" if beat.opcode == 4 else "atomic-on-owned" if beat.opcode > 1 else "write-to-owned"
    if holding.count("B") > 1 and beat.opcode < 2:
        yield "write-to-shared"


def on_channel_b(beat, link):
    held, block = link.held[beat.block], beat.block
    yield f"probe-{CAPS[beat.param]}"
    if beat.source:
        yield "probe-with-source"
    if block in link.releasing:
        yield "probe-beside-release"
    if block in link.acquiring and held in "NB":
        yield "probe-beside-acquire" if held == "N" else "probe-beside-upgrade"
    if held == "N":
        yield "probe-of-nothing"


def on_channel_c(beat, link, others):
    if beat.opcode == 5 and any(other.under_way.get("D") and other.under_way["D"].grant for other in others):
        yield "report-beside-grant"
    if beat.probe_ack:
        yield f"report-{REPORTS[beat.param]}"
    if beat.release:
        yield f"release-{REPORTS[beat.param]}"
    if (beat.probe_ack or beat.release) and beat.param == 5 and link.held[beat.block] != "N":
        yield "copy-dropped"
    if beat.release and beat.block in link.probed:
        yield "release-beside-probe"
    if beat.release and beat.block in link.granted:
        yield "release-before-grant-ack"


def on_channel_d(beat, link):
    newest = link.newest
    if newest and newest.source == beat.source:
        if newest.release if beat.release_ack else newest.channel == "A":
            yield "response-at-once"
    asking = link.under_way.get("C" if beat.release_ack else "A")
    if asking and asking.source == beat.source and (asking.release or not beat.release_ack):
        yield "early-response"
    if not beat.grant and beat.sink:
        yield "sink-without-grant"
    if beat.opcode == 1 and beat.denied and not beat.corrupt:
        yield "denied-uncorrupt"
    if beat.grant:
        request = link.requests[beat.source]
        if beat.denied:
            yield "grant-denied"
        if request.acquire and request.param == 0 and beat.param == 0:
            yield "grant-of-more"
        change = f"{link.held[request.block]}to{GIVEN[beat.param]}"
        if change in GROWS:
            yield f"grant-{change}"
        if request.param == 2 and link.held[request.block] == "N":
            yield "upgrade-lost-data" if beat.opcode == 5 else "upgrade-lost-no-data"
        if link.sinks:
            yield "two-grants"
        if len(link.sinks) > 2:
            yield "four-grants"


def on_channel_e(beat, link):
    if not (link.newest and link.newest.channel == "D"):
        yield "grant-ack-later"
    grant = link.under_way.get("D")
    if grant and grant.grant and grant.sink == beat.sink:
        yield "early-grant-ack"


def situations(beat, link, others, width):
    """The situations that a message begins in with a beat."""
    between = all(link.under_way.get(channel) for channel in "ACD")
    return [*["between-bursts"][:between], *situations_of_channel(beat, link, others, width)]


def situations_of_channel(beat, link, others, width):
    if beat.channel == "A":
        return on_channel_a(beat, link, others, width)
    if beat.channel == "B" and beat.probe:
        return on_channel_b(beat, link)
    if beat.channel == "C":
        return on_channel_c(beat, link, others)
    if beat.channel == "D":
        return on_channel_d(beat, link)
    return on_channel_e(beat, link) if beat.channel == "E" else []
