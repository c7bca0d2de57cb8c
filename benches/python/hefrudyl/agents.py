"""Clients and managers."""

import ctypes

from ._handles import Agent
from ._library import LIBRARY, field, rule_name, struct_of, taken
from ._structs import ClientHandle, LinkConfig, ManagerHandle, OperationStruct, OutcomeStruct, ReceptionStruct
from .values import Admitted, Code, Outcome, Perm, Received, Reception, Reply


class Client(Agent):
    """A client of a level on a link of beats of `width` bytes, with the beats that it has still to send."""

    def __init__(self, level, blocks, sources=1, width=8, profile=1):
        super().__init__(ClientHandle(), LIBRARY.tl_client_free, width)
        taken(LIBRARY.tl_client_new(self._handle, field(level, "level", 256), field(blocks, "blocks", 1 << 16),
                                      field(sources, "sources", 256), field(width, "width", 256),
                                      field(profile, "profile", 256)), "level, blocks, sources, width or profile")

    def ask(self, kind, data=b"", **fields):
        """Asks for an operation, with its fields by name (value, mask, address, block, opcode, param, size). An Acquire
        goes out after the beats that wait on channel C already: on the link a block is held until the answer to its
        Probe is sent, while the client has given it up."""
        operation, outcome = OperationStruct(kind=field(kind, "kind", 256)), OutcomeStruct()
        operation.bytes[: len(data)] = data
        kinds = dict(OperationStruct._fields_)
        for name, value in fields.items():
            setattr(operation, name, field(value, name, 1 << (8 * ctypes.sizeof(kinds[name]))))
        taken(LIBRARY.tl_client_ask(self._handle, operation, outcome), "the operation")
        return Reply(Outcome(outcome.kind), outcome.value, outcome.source, outcome.busy)

    def offer(self, beat):
        """Offers a beat of channel B or D."""
        told = ReceptionStruct()
        answer = LIBRARY.tl_client_offer(self._handle, struct_of(beat), told)
        return Received(taken(answer, "the beat"), rule_name(answer.rule), Reception(told.kind), told.source, told.size,
                        Perm(told.perm), bytes(told.bytes))

    def stalls(self, beat):
        """Whether a beat would have to wait."""
        return self._told(LIBRARY.tl_client_stalls, struct_of(beat)) == 1

    def next(self, channel):
        """The next beat to send on a channel, or None. Its data are zeros where it carries none."""
        return self._shown(LIBRARY.tl_client_next, field(channel, "channel", 256))

    def pop(self, channel):
        """The same, and the beat is sent now."""
        return self._shown(LIBRARY.tl_client_pop, field(channel, "channel", 256))

    def held(self, block):
        """What is held of a block."""
        return Perm(self._told(LIBRARY.tl_client_held, field(block, "block", 1 << 16)))

    def copy(self, block):
        """The 64 bytes of the copy of a block, or None."""
        told = (ctypes.c_uint8 * 64)()
        answer = LIBRARY.tl_client_copy(self._handle, field(block, "block", 1 << 16), told)
        return None if taken(answer, "the block") == Code.NOTHING else bytes(told)

    def closed(self):
        """Whether a beat was refused."""
        return self._told(LIBRARY.tl_client_closed) == 1


class Manager(Agent):
    """A manager of links, each with its level and how many sources its client has, on so many blocks, under profile 1
    or 2 or, where they are given, under these liberties: any of IDS, WRITER, DROPS and REPORTS. With IDS the Probes of
    each link have its source of `probe_sources`, where these are given, and else 0."""

    def __init__(self, links, blocks, trackers=8, width=8, profile=1, liberties=None, probe_sources=None):
        super().__init__(ManagerHandle(), LIBRARY.tl_manager_free, width)
        configs = (LinkConfig * max(len(links), 1))()
        for config, (level, sources) in zip(configs, links):
            config.level, config.sources = field(level, "a level", 256), field(sources, "sources", 256)
        given = (self._handle, configs, len(links), field(blocks, "blocks", 1 << 16), field(trackers, "trackers", 256),
                 field(width, "width", 256))
        if liberties is None:
            answer = LIBRARY.tl_manager_new(*given, field(profile, "profile", 256))
            taken(answer, "links, blocks, trackers, width or profile")
        else:
            sources = [0] * len(links) if probe_sources is None else probe_sources
            codes = bytes(field(source, "the source of a Probe", 256) for source in sources)
            answer = LIBRARY.tl_manager_new_under(*given, field(liberties, "liberties", 256), codes, len(codes))
            taken(answer, "links, blocks, trackers, width, liberties or sources of Probes")

    def offer(self, link, beat):
        """Offers a beat of channel A, C or E of a link."""
        told = ctypes.c_uint8()
        answer = LIBRARY.tl_manager_offer(self._handle, field(link, "link", 256), struct_of(beat), told)
        return Admitted(taken(answer, "the link or the beat"), rule_name(answer.rule), told.value == 1)

    def stalls(self, link, beat):
        """Whether a beat of a link would have to wait."""
        return self._told(LIBRARY.tl_manager_stalls, field(link, "link", 256), struct_of(beat)) == 1

    def next(self, link, channel):
        """The next beat to send on a channel of a link, or None. Its data are zeros where it carries none."""
        return self._shown(LIBRARY.tl_manager_next, field(link, "link", 256), field(channel, "channel", 256))

    def pop(self, link, channel):
        """The same, and the beat is sent now."""
        return self._shown(LIBRARY.tl_manager_pop, field(link, "link", 256), field(channel, "channel", 256))

    def closed(self, link):
        """Whether a link takes no beats: one was refused, or there is no such link."""
        return self._told(LIBRARY.tl_manager_closed, field(link, "link", 256)) == 1
