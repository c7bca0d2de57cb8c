// The calls of tl_proved_manager in Icarus, which has no DPI: system functions of the names of tl_agents_dpi.cpp, each of which
// hands its arguments on. Bits that are unknown are 0, as they are over DPI.
#include <cstdint>
#include <string>
#include <vector>

using svBitVecVal = std::uint32_t;
#define TL_DPI_WITHOUT_SVDPI
#include "tl_agents_dpi.cpp"

#include <vpi_user.h>

namespace {

/// The managers that were made. Icarus takes the value of a system function for 32 bits, so that one is named by its number,
/// from 1 on.
std::vector<void *> managers;

/// The arguments of the call that is running, from 0 on.
class Call {
public:
  Call() : call(vpi_handle(vpiSysTfCall, nullptr)) {
    vpiHandle iterator = vpi_iterate(vpiArgument, call);
    while (vpiHandle argument = iterator ? vpi_scan(iterator) : nullptr) arguments.push_back(argument);
  }

  std::vector<std::uint32_t> words(int i) {
    s_vpi_value value = {};
    value.format = vpiVectorVal;
    vpi_get_value(arguments[i], &value);
    std::vector<std::uint32_t> read((vpi_get(vpiSize, arguments[i]) + 31) / 32);
    for (std::size_t word = 0; word < read.size(); word++)
      read[word] = static_cast<std::uint32_t>(value.value.vector[word].aval & ~value.value.vector[word].bval);
    return read;
  }
  long long number(int i) {
    std::vector<std::uint32_t> read = words(i);
    return static_cast<long long>(read[0] | (read.size() > 1 ? static_cast<std::uint64_t>(read[1]) << 32 : 0));
  }
  int integer(int i) { return static_cast<int>(number(i)); }
  void *manager(int i) { return managers.at(number(i) - 1); }

  void put(int i, const std::vector<std::uint32_t> &words) { put_words(arguments[i], words); }
  void put(int i, long long number) { put_words(arguments[i], halves(number)); }
  void answer(int number) { put_words(call, {static_cast<std::uint32_t>(number)}); }

private:
  static std::vector<std::uint32_t> halves(long long number) {
    const auto bits = static_cast<std::uint64_t>(number);
    return {static_cast<std::uint32_t>(bits), static_cast<std::uint32_t>(bits >> 32)};
  }
  static void put_words(vpiHandle into, const std::vector<std::uint32_t> &words) {
    std::vector<s_vpi_vecval> vector(words.size());
    for (std::size_t word = 0; word < words.size(); word++) vector[word].aval = static_cast<PLI_INT32>(words[word]);
    s_vpi_value value = {};
    value.format = vpiVectorVal;
    value.value.vector = vector.data();
    vpi_put_value(into, &value, nullptr, vpiNoDelay);
  }

  vpiHandle call;
  std::vector<vpiHandle> arguments;
};

/// What a call shows of a beat: its fields, address, mask and lanes, from argument `first` on.
template <typename Next> int shown(Call &call, int first, Next next) {
  long long fields = 0;
  int address = 0, mask = 0;
  std::vector<std::uint32_t> lanes(4);
  const int found = next(&fields, &address, &mask, lanes.data());
  call.put(first, fields);
  call.put(first + 1, address);
  call.put(first + 2, mask);
  call.put(first + 3, lanes);
  return found;
}

PLI_INT32 manager_open(PLI_BYTE8 *) {
  Call call;
  void *manager = tl_dpi_manager_open(call.integer(0), call.integer(1), call.integer(2), call.integer(3), call.integer(4),
                                      call.integer(5), call.integer(6), call.integer(7), call.words(8).data());
  if (manager) managers.push_back(manager);
  call.answer(manager ? static_cast<int>(managers.size()) : 0);
  return 0;
}

PLI_INT32 manager_offer(PLI_BYTE8 *) {
  Call call;
  call.answer(tl_dpi_manager_offer(call.manager(0), call.integer(1), call.number(2), call.integer(3), call.integer(4),
                                   call.words(5).data()));
  return 0;
}

PLI_INT32 manager_stalls(PLI_BYTE8 *) {
  Call call;
  call.answer(tl_dpi_manager_stalls(call.manager(0), call.integer(1), call.number(2), call.integer(3), call.integer(4),
                                    call.words(5).data()));
  return 0;
}

PLI_INT32 manager_next(PLI_BYTE8 *) {
  Call call;
  call.answer(shown(call, 3, [&](long long *fields, int *address, int *mask, svBitVecVal *lanes) {
    return tl_dpi_manager_next(call.manager(0), call.integer(1), call.integer(2), fields, address, mask, lanes);
  }));
  return 0;
}

PLI_INT32 manager_sent(PLI_BYTE8 *) {
  Call call;
  tl_dpi_manager_sent(call.manager(0), call.integer(1), call.integer(2));
  return 0;
}

PLI_INT32 manager_close(PLI_BYTE8 *) {
  Call call;
  tl_dpi_manager_close(call.manager(0));
  return 0;
}

/// The name of a rule as three letters, the first highest.
PLI_INT32 rule(PLI_BYTE8 *) {
  Call call;
  int letters = 0;
  for (char letter : hefrudyl::rule_name(static_cast<std::uint8_t>(call.integer(0)))) letters = letters << 8 | letter;
  call.answer(letters);
  return 0;
}

PLI_INT32 nothing(PLI_BYTE8 *) { return 0; }

void add(const char *name, PLI_INT32 kind, PLI_INT32 (*run)(PLI_BYTE8 *)) {
  s_vpi_systf_data data = {};
  data.type = kind;
  data.sysfunctype = kind == vpiSysFunc ? vpiIntFunc : 0;
  data.tfname = name;
  data.calltf = run;
  vpi_register_systf(&data);
}

void add_all() {
  add("$tl_dpi_manager_open", vpiSysFunc, manager_open);
  add("$tl_dpi_manager_offer", vpiSysFunc, manager_offer);
  add("$tl_dpi_manager_stalls", vpiSysFunc, manager_stalls);
  add("$tl_dpi_manager_next", vpiSysFunc, manager_next);
  add("$tl_dpi_manager_sent", vpiSysTask, manager_sent);
  add("$tl_dpi_manager_close", vpiSysTask, manager_close);
  add("$tl_checker_rule", vpiSysFunc, rule);
  add("$tl_checker_flush", vpiSysTask, nothing);
}

}  // namespace

extern "C" {
void (*vlog_startup_routines[])() = {add_all, nullptr};
}
