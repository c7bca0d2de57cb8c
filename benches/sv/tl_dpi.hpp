// A beat as it crosses DPI: `fields` has channel, opcode, param, size, source, sink, denied and corrupt,
// a byte each from the lowest on, as in `tl_beat`; address, mask and lanes stand beside it. Those of a wide beat are wider, and
// `ids` has its source in the lower half and its sink in the upper one.
#ifndef TL_DPI_HPP
#define TL_DPI_HPP

#include <hefrudyl.hpp>

#ifndef TL_DPI_WITHOUT_SVDPI
#include <svdpi.h>
#endif

namespace tl_dpi {

inline tl_beat beat_of(long long fields, int address, int mask, const svBitVecVal *lanes) {
  tl_beat beat = {};
  for (int word = 0; word < 4; word++)
    for (int i = 0; i < 4; i++) beat.lanes[4 * word + i] = static_cast<std::uint8_t>(lanes[word] >> (8 * i));
  beat.address = static_cast<std::uint32_t>(address);
  beat.mask = static_cast<std::uint16_t>(mask);
  std::uint8_t *field = &beat.channel;
  for (int i = 0; i < 8; i++) field[i] = static_cast<std::uint8_t>(fields >> (8 * i));
  return beat;
}

inline tl_wide_beat wide_beat_of(long long fields, int ids, long long address, long long mask, const svBitVecVal *lanes) {
  tl_wide_beat beat = {};
  for (int i = 0; i < 64; i++) beat.lanes[i] = static_cast<std::uint8_t>(lanes[i / 4] >> (8 * (i % 4)));
  beat.address = static_cast<std::uint64_t>(address);
  beat.mask = static_cast<std::uint64_t>(mask);
  beat.source = static_cast<std::uint16_t>(ids);
  beat.sink = static_cast<std::uint16_t>(static_cast<unsigned>(ids) >> 16);
  const auto field = [fields](int i) { return static_cast<std::uint8_t>(fields >> (8 * i)); };
  beat.channel = field(0);
  beat.opcode = field(1);
  beat.param = field(2);
  beat.size = field(3);
  beat.denied = field(6);
  beat.corrupt = field(7);
  return beat;
}

inline void show(const tl_beat &beat, long long *fields, int *address, int *mask, svBitVecVal *lanes) {
  for (int word = 0; word < 4; word++) {
    lanes[word] = 0;
    for (int i = 0; i < 4; i++) lanes[word] |= static_cast<svBitVecVal>(beat.lanes[4 * word + i]) << (8 * i);
  }
  *address = static_cast<int>(beat.address);
  *mask = beat.mask;
  const std::uint8_t *field = &beat.channel;
  *fields = 0;
  for (int i = 0; i < 8; i++) *fields |= static_cast<long long>(field[i]) << (8 * i);
}

/// The code of an answer, and 256 times the number of the rule.
inline int number_of(tl_answer answer) { return answer.code + 256 * answer.rule; }

}  // namespace tl_dpi
#endif
