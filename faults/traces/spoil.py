"""Traces with one line spoiled."""


def rearrange(items, place, kind):
    """Drops or doubles the item at a place, or turns it and the next around, if that is the kind."""
    if kind == "drop":
        del items[place]
    elif kind == "twice":
        items.insert(place, items[place])
    elif kind == "turn" and place + 1 < len(items):
        items[place:place + 2] = reversed(items[place:place + 2])


def spoiled(beats, width, rng):
    """The same with one beat left out, twice, exchanged with the next, or with another field."""
    beats, place = list(beats), rng.randrange(len(beats))
    kind = rng.choice(["drop", "twice", "turn", "size", "source", "address", "mask", "mask", "mask", "mask", "data", "sink", "param", "denied", "corrupt", "link"])
    small = [it for it, beat in enumerate(beats) if beat.channel == "A" and 2**beat.size < width]
    if kind == "mask" and small:
        # most likely a lane that the message hasn't
        place = rng.choice(small)
    beat = beats[place]
    rearrange(beats, place, kind)
    if kind == "size":
        beats[place] = beat.copy(size=(beat.size + rng.choice([-1, 1, 2])) % 16)
    elif kind == "source":
        beats[place] = beat.copy(source=rng.choice([0, rng.randrange(2**16), rng.choice(beats).source]))
    elif kind == "address" and beat.channel in "ABC":
        beats[place] = beat.copy(address=rng.choice([beat.address ^ 1 << rng.randrange(6), rng.choice(beats).address, rng.randrange(2**64)]))
    elif kind == "mask" and beat.channel in "AB":
        beats[place] = beat.copy(mask=beat.mask ^ 1 << rng.randrange(width))
    elif kind == "data" and beat.data is not None:
        lane = rng.randrange(width)
        beats[place] = beat.copy(data=[it ^ (lane == i) for i, it in enumerate(beat.data)])
    elif kind == "sink":
        beats[place] = beat.copy(sink=rng.choice([0, rng.randrange(2**16)]))
    elif kind == "param" and beat.channel in "ABCD":
        beats[place] = beat.copy(param=str(rng.randrange(4)))
    elif kind == "denied" and beat.channel == "D":
        beats[place] = beat.copy(denied="10"[int(beat.denied)])
    elif kind == "corrupt" and beat.channel in "ABCD":
        beats[place] = beat.copy(corrupt="10"[int(beat.corrupt)])
    elif kind == "link":
        beats[place] = beat.copy(link=rng.choice(beats).link)
    return beats
