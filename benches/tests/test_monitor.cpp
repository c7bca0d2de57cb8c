// The C++ header: a monitor, judges, a client and a manager are moved, freed once, and refuse what can't be made.
#include <hefrudyl.hpp>

#include <cstdio>

int main() {
  hefrudyl::Monitor first({TL_C});
  hefrudyl::Monitor second(std::move(first));
  tl_beat acknowledge = {};
  acknowledge.channel = TL_CHANNEL_E;
  bool right = first.push(0, acknowledge).code == TL_BAD_ARGUMENT;
  tl_answer answer = second.push(0, acknowledge);
  right = right && answer.code == TL_BROKEN && hefrudyl::rule_name(answer.rule) == "H8";
  first = std::move(second);
  right = right && first.push(0, acknowledge).code == TL_CLOSED;
  try {
    hefrudyl::Monitor none({});
    right = false;
  } catch (const std::invalid_argument &) {
  }
  hefrudyl::Monitor liberal = hefrudyl::Monitor::under({TL_C}, TL_EARLY);
  for (const char *line : {"00 A 6 0 6 00 00000000 ff - 0\n", "00 D 5 1 6 00 00 0 0000000000000000 0\n", "00 E 00\n"})
    right = right && liberal.push_line(line).code == TL_OK;
  hefrudyl::Judge early = hefrudyl::Judge::under({TL_C, TL_C}, TL_EARLY);
  for (const char *line : {"00 A 6 1 6 00 00000000 ff - 0\n", "00 D 5 0 6 00 00 0 0000000000000000 0\n", "00 E 00\n",
                           "01 A 7 1 6 00 00000000 ff - 0\n"})
    right = right && early.push_line(line).code == TL_OK;
  answer = early.push_line("01 D 4 0 6 00 01 0 - 0\n");
  right = right && answer.code == TL_BROKEN && hefrudyl::rule_name(answer.rule) == "M1";
  hefrudyl::Judge unmoved({TL_C, TL_C});
  hefrudyl::Judge judge(std::move(unmoved));
  right = right && unmoved.push(0, acknowledge).code == TL_BAD_ARGUMENT;
  for (const char *line : {"00 A 7 1 6 00 00000000 ff - 0\n", "00 D 4 0 6 00 00 0 - 0\n", "01 A 7 1 6 00 00000000 ff - 0\n"})
    right = right && judge.push_line(line).code == TL_OK;
  answer = judge.push_line("01 D 4 0 6 00 01 0 - 0\n");
  right = right && answer.code == TL_BROKEN && hefrudyl::rule_name(answer.rule) == "M1";
  hefrudyl::CommitJudge unmade({TL_C, TL_C}, {1, 0}, 16);
  hefrudyl::CommitJudge commits(std::move(unmade));
  tl_commit stored = {};
  stored.value = 5;
  stored.kind = TL_COMMIT_STORE;
  right = right && unmade.commit(0, stored).code == TL_BAD_ARGUMENT;
  answer = commits.try_commit(0, stored);
  right = right && answer.code == TL_BROKEN && hefrudyl::rule_name(answer.rule) == "M5";
  right = right && commits.push_line("00 A 7 1 6 00 00000000 ffff - 0\n").code == TL_OK;
  tl_beat granted = {};
  granted.channel = TL_CHANNEL_D;
  granted.opcode = TL_D_Grant;
  granted.size = 6;
  right = right && commits.push(0, granted).code == TL_OK && commits.try_push(0, granted).code == TL_BROKEN;
  right = right && commits.commit(0, stored).code == TL_OK && commits.push_line("00 L 0 00000000 05\n").code == TL_OK;
  stored.kind = TL_COMMIT_LOAD;
  stored.value = 6;
  answer = commits.commit(0, stored);
  right = right && answer.code == TL_BROKEN && hefrudyl::rule_name(answer.rule) == "M6";
  right = right && commits.push(0, acknowledge).code == TL_CLOSED;
  try {
    hefrudyl::CommitJudge none({TL_C, TL_C}, {1});
    right = false;
  } catch (const std::invalid_argument &) {
  }
  for (bool zero : {false, true}) {
    hefrudyl::CommitJudge narrow({TL_C}, {0}, 16, TL_NO_LIBERTIES, zero);
    right = right && narrow.push_line("00 A 6 0 6 00 00000000 ffff - 0\n").code == TL_OK;
    answer = narrow.push_line("00 D 5 1 6 00 00 0 00000000000000000000000000000007 0\n");
    right = right && (zero ? answer.code == TL_BROKEN && answer.rule == TL_M2 : answer.code == TL_OK);
    hefrudyl::WideCommitJudge wide({TL_UL}, {0}, 32, TL_NO_LIBERTIES, zero);
    tl_wide_beat get = {}, brought = {};
    get.opcode = TL_A_Get;
    get.mask = 1;
    brought.channel = TL_CHANNEL_D;
    brought.opcode = TL_D_AccessAckData;
    brought.lanes[0] = 7;
    right = right && wide.push(0, get).code == TL_OK;
    answer = wide.push(0, brought);
    right = right && (zero ? answer.code == TL_BROKEN && answer.rule == TL_M3 : answer.code == TL_OK);
  }
  hefrudyl::Client made(TL_C, 4);
  hefrudyl::Client client(std::move(made));
  tl_operation acquire = {};
  acquire.kind = TL_ACQUIRE;
  acquire.param = TL_NtoB;
  tl_outcome outcome = {};
  right = right && made.ask(acquire, outcome).code == TL_BAD_ARGUMENT;
  right = right && client.ask(acquire, outcome).code == TL_OK && outcome.kind == TL_STARTED;
  tl_beat sent = {};
  right = right && client.pop(TL_CHANNEL_A, sent).code == TL_OK && sent.opcode == TL_A_AcquireBlock;
  right = right && client.next(TL_CHANNEL_A, sent).code == TL_NOTHING;
  hefrudyl::Manager moved({{TL_C, 1}, {TL_UL, 1}}, 4);
  hefrudyl::Manager manager(std::move(moved));
  std::uint8_t told = 9;
  right = right && moved.offer(0, sent, told).code == TL_BAD_ARGUMENT && told == 9;
  right = right && manager.stalls(0, sent, told).code == TL_OK && told == 0;
  right = right && manager.offer(0, sent, told).code == TL_OK && told == 1;
  right = right && manager.next(1, TL_CHANNEL_D, sent).code == TL_NOTHING;
  right = right && manager.pop(0, TL_CHANNEL_D, sent).code == TL_OK && sent.opcode == TL_D_GrantData;
  right = right && manager.closed(0, told).code == TL_OK && told == 0;
  try {
    hefrudyl::Manager none({}, 4);
    right = false;
  } catch (const std::invalid_argument &) {
  }
  hefrudyl::Manager partner = hefrudyl::Manager::under({{TL_C, 1}, {TL_C, 1}}, 4, TL_IDS | TL_DROPS, {5, 6});
  right = right && partner.offer(0, sent, told).code == TL_BROKEN && partner.closed(0, told).code == TL_OK && told == 1;
  for (std::uint8_t liberties : {TL_EARLY, TL_SINKS}) {
    try {
      hefrudyl::Manager::under({{TL_C, 1}}, 4, liberties);
      right = false;
    } catch (const std::invalid_argument &) {
    }
  }
  hefrudyl::Monitor reader({TL_C});
  std::uint64_t entries = 9;
  right = right && reader.push_line("00 A 4 0 3 00 00000000 ff - 0\n").code == TL_OK;
  right = right && reader.entries(0, entries).code == TL_OK && entries == 1;
  right = right && hefrudyl::error_text(reader.push_line("00 A\n").code).find("out of range") != std::string::npos;
  hefrudyl::Cover cover({TL_C});
  tl_beat asked = {};
  asked.channel = TL_CHANNEL_A;
  asked.opcode = TL_A_AcquirePerm;
  asked.param = TL_NtoT;
  asked.size = 6;
  asked.mask = 0xff;
  right = right && cover.push(0, asked).code == TL_OK;
  for (std::uint8_t i = 0; i < TL_SITUATIONS; i++) {
    bool came = hefrudyl::situation_name(i) == "acquire-NtoT";
    right = right && cover.count(i).count == came && cover.count(i).line == (came ? 2u : 0u) && !hefrudyl::situation_text(i).empty();
  }
  for (std::uint8_t i = 0; i < TL_BINS; i++) {
    bool came = hefrudyl::bin_name(i) == "A-AcquirePerm-NtoT-64" || hefrudyl::bin_name(i) == "pending-acquire-1";
    right = right && cover.bin(0, i).count == came && cover.bin(0, i).line == (came ? 2u : 0u) && !hefrudyl::bin_text(i).empty();
    right = right && (!came || cover.bin(0, i).possible == 1);
  }
  try {
    cover.bin(1, 0);
    right = false;
  } catch (const std::invalid_argument &) {
  }
  std::printf("%d failures\n", right ? 0 : 1);
  return right ? 0 : 1;
}
