// The DPI side of tl_proved_manager and tl_proved_client. Nothing is decided here: what crosses is put
// into the library's structs, and what it answers is handed back.
#include "tl_dpi.hpp"

#include <cstdio>
#include <cstring>

using hefrudyl::Client;
using hefrudyl::Manager;

namespace {

Manager &manager_at(void *manager) { return *static_cast<Manager *>(manager); }
Client &client_at(void *client) { return *static_cast<Client *>(client); }

template <typename Make> void *opened(const char *what, Make make) {
  try {
    return make();
  } catch (const std::exception &error) {
    std::fprintf(stderr, "%s: %s\n", what, error.what());
    return nullptr;
  }
}

}  // namespace

// ---- the manager. `levels` has two bits for each link, and `probe_sources` eight, the lowest for link 0.

extern "C" void *tl_dpi_manager_open(int links, int levels, int sources, int blocks, int trackers, int width,
                                     int profile, int liberties, const svBitVecVal *probe_sources) {
  return opened("tl_proved_manager", [=] {
    std::vector<tl_link_config> configs;
    std::vector<std::uint8_t> of_probes;
    for (int i = 0; i < links; i++) {
      configs.push_back({static_cast<std::uint8_t>((static_cast<unsigned>(levels) >> (2 * i)) & 3),
                         static_cast<std::uint8_t>(sources)});
      of_probes.push_back(static_cast<std::uint8_t>(probe_sources[i / 4] >> (8 * (i % 4))));
    }
    const auto set = static_cast<std::uint8_t>(liberties | (profile == 2 ? TL_WRITER : TL_NO_LIBERTIES));
    return new Manager(Manager::under(configs, static_cast<std::uint16_t>(blocks), set, of_probes,
                                      static_cast<std::uint8_t>(trackers), static_cast<std::uint8_t>(width)));
  });
}

// The answer is the code, 256 times the number of the rule, and 65,536 where the beat was taken.
extern "C" int tl_dpi_manager_offer(void *manager, int link, long long fields, int address, int mask,
                                    const svBitVecVal *lanes) {
  std::uint8_t taken = 0;
  tl_answer answer = manager_at(manager).offer(static_cast<std::uint8_t>(link),
                                               tl_dpi::beat_of(fields, address, mask, lanes), taken);
  return tl_dpi::number_of(answer) + 65536 * taken;
}

extern "C" int tl_dpi_manager_stalls(void *manager, int link, long long fields, int address, int mask,
                                     const svBitVecVal *lanes) {
  std::uint8_t stalled = 0;
  manager_at(manager).stalls(static_cast<std::uint8_t>(link), tl_dpi::beat_of(fields, address, mask, lanes), stalled);
  return stalled;
}

// 1 where a beat waits to be sent on the channel of the link.
extern "C" int tl_dpi_manager_next(void *manager, int link, int channel, long long *fields, int *address, int *mask,
                                   svBitVecVal *lanes) {
  tl_beat beat = {};
  tl_answer answer =
      manager_at(manager).next(static_cast<std::uint8_t>(link), static_cast<std::uint8_t>(channel), beat);
  tl_dpi::show(beat, fields, address, mask, lanes);
  return answer.code == TL_OK;
}

extern "C" void tl_dpi_manager_sent(void *manager, int link, int channel) {
  tl_beat beat;
  manager_at(manager).pop(static_cast<std::uint8_t>(link), static_cast<std::uint8_t>(channel), beat);
}

extern "C" void tl_dpi_manager_close(void *manager) { delete static_cast<Manager *>(manager); }

// ---- a client

extern "C" void *tl_dpi_client_open(int level, int blocks, int sources, int width, int profile) {
  return opened("tl_proved_client", [=] {
    return new Client(static_cast<std::uint8_t>(level), static_cast<std::uint16_t>(blocks),
                      static_cast<std::uint8_t>(sources), static_cast<std::uint8_t>(width),
                      static_cast<std::uint8_t>(profile));
  });
}

// The answer is the code, and 256 times the kind of the outcome (enum tl_outcome_kind).
extern "C" int tl_dpi_client_ask(void *client, int kind, int address, int param, int size, long long value,
                                 long long *loaded) {
  tl_operation operation = {};
  operation.kind = static_cast<std::uint8_t>(kind);
  operation.address = static_cast<std::uint32_t>(address);
  operation.block = static_cast<std::uint16_t>(operation.address / 64);
  operation.param = static_cast<std::uint8_t>(param);
  operation.size = static_cast<std::uint8_t>(size);
  operation.value = static_cast<std::uint64_t>(value);
  tl_outcome outcome = {};
  tl_answer answer = client_at(client).ask(operation, outcome);
  *loaded = static_cast<long long>(outcome.value);
  return answer.code + 256 * outcome.kind;
}

// An access of 2^size bytes: byte i of `mask` and `bytes` is that of lane i modulo the width. The answer is that of an ask.
extern "C" int tl_dpi_client_access(void *client, int opcode, int param, int size, int address, long long mask,
                                    const svBitVecVal *bytes) {
  tl_operation operation = {};
  operation.kind = TL_ACCESS;
  operation.opcode = static_cast<std::uint8_t>(opcode);
  operation.param = static_cast<std::uint8_t>(param);
  operation.size = static_cast<std::uint8_t>(size);
  operation.address = static_cast<std::uint32_t>(address);
  operation.mask = static_cast<std::uint64_t>(mask);
  for (int i = 0; i < 64; i++) operation.bytes[i] = static_cast<std::uint8_t>(bytes[i / 4] >> (8 * (i % 4)));
  tl_outcome outcome = {};
  tl_answer answer = client_at(client).ask(operation, outcome);
  return answer.code + 256 * outcome.kind;
}

// The answer is the code, 256 times the number of the rule, and 65,536 times the kind of the reception
// (enum tl_reception_kind).
extern "C" int tl_dpi_client_offer(void *client, long long fields, int address, int mask, const svBitVecVal *lanes) {
  tl_reception reception = {};
  tl_answer answer = client_at(client).offer(tl_dpi::beat_of(fields, address, mask, lanes), reception);
  return tl_dpi::number_of(answer) + 65536 * reception.kind;
}

extern "C" int tl_dpi_client_stalls(void *client, long long fields, int address, int mask, const svBitVecVal *lanes) {
  std::uint8_t stalled = 0;
  client_at(client).stalls(tl_dpi::beat_of(fields, address, mask, lanes), stalled);
  return stalled;
}

extern "C" int tl_dpi_client_next(void *client, int channel, long long *fields, int *address, int *mask,
                                  svBitVecVal *lanes) {
  tl_beat beat = {};
  tl_answer answer = client_at(client).next(static_cast<std::uint8_t>(channel), beat);
  tl_dpi::show(beat, fields, address, mask, lanes);
  return answer.code == TL_OK;
}

extern "C" void tl_dpi_client_sent(void *client, int channel) {
  tl_beat beat;
  client_at(client).pop(static_cast<std::uint8_t>(channel), beat);
}

extern "C" int tl_dpi_client_held(void *client, int block) {
  std::uint8_t perm = 0;
  client_at(client).held(static_cast<std::uint16_t>(block), perm);
  return perm;
}

// 1 where the client has a copy of the block; its 64 bytes, byte 0 lowest.
extern "C" int tl_dpi_client_copy(void *client, int block, svBitVecVal *bytes) {
  std::uint8_t copy[64] = {};
  tl_answer answer = client_at(client).copy(static_cast<std::uint16_t>(block), copy);
  std::memset(bytes, 0, 16 * sizeof(svBitVecVal));
  for (int i = 0; i < 64; i++) bytes[i / 4] |= static_cast<svBitVecVal>(copy[i]) << (8 * (i % 4));
  return answer.code == TL_OK;
}

extern "C" void tl_dpi_client_close(void *client) { delete static_cast<Client *>(client); }
