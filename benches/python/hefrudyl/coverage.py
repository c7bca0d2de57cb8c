"""What counts the situations and the bins of messages."""

from ._handles import Agent
from ._library import LIBRARY, field, rule_name, struct_of, taken, written
from ._structs import BinTallyStruct, CoverHandle, TallyStruct
from .values import Bin, Code, Situation, Verdict


class Cover(Agent):
    """Counts how often messages of 1 to 16 links of these levels, of beats of `width` bytes, begin in each situation, and on
    each link in each bin, where the links have these liberties."""

    def __init__(self, levels, width=8, liberties=0):
        super().__init__(CoverHandle(), LIBRARY.tl_cover_free, width)
        codes = bytes(field(level, "a level", 256) for level in levels)
        taken(LIBRARY.tl_cover_new(self._handle, codes, len(codes), field(width, "width", 256),
                                     field(int(liberties), "liberties", 256)), "levels or width")

    def push(self, link, beat):
        """Judges a beat of a link as a monitor does, and counts the situations of the message that begins with it."""
        answer = LIBRARY.tl_cover_push(self._handle, field(link, "link", 256), struct_of(beat))
        return Verdict(Code(answer.code), rule_name(answer.rule))

    def situations(self):
        """All situations, in the order in which `tltool cover` writes them."""
        found, tally = [], TallyStruct()
        while name := written(LIBRARY.tl_situation_name, len(found)):
            taken(LIBRARY.tl_cover_count(self._handle, len(found), tally), "a situation")
            found.append(Situation(name, written(LIBRARY.tl_situation_text, len(found)), tally.count, tally.line or None))
        return found

    def bins(self, link):
        """All bins of a link, in the order in which `tltool cover --json` writes them."""
        found, tally = [], BinTallyStruct()
        while name := written(LIBRARY.tl_bin_name, len(found)):
            taken(LIBRARY.tl_cover_bin(self._handle, field(link, "link", 256), len(found), tally), "a link")
            found.append(Bin(name, written(LIBRARY.tl_bin_text, len(found)), tally.count, tally.line or None, tally.possible == 1))
        return found
