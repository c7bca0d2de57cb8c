// Pushes the beats of a trace of one link again and again, as structs, and tells the processor time of
// a beat in nanoseconds. The trace has to end with nothing pending and nothing held.
#include <hefrudyl.hpp>

#include <cstdio>
#include <cstdlib>
#include <ctime>
#include <vector>

int main(int argc, char **argv) {
  if (argc != 2) return 2;
  const long beats = std::atol(argv[1]);
  tl_beat get = {}, data = {};
  get.channel = TL_CHANNEL_A;
  get.opcode = TL_A_Get;
  get.size = 3;
  get.mask = 0xff;
  data.channel = TL_CHANNEL_D;
  data.opcode = TL_D_AccessAckData;
  data.size = 3;
  hefrudyl::Monitor monitor({TL_C});
  std::clock_t start = std::clock();
  for (long i = 0; i < beats; i += 2)
    if (monitor.push(0, get).code != TL_OK || monitor.push(0, data).code != TL_OK) return 1;
  std::printf("%.1f\n", 1e9 * double(std::clock() - start) / CLOCKS_PER_SEC / double(beats));
}
