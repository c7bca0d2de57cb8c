// Hefrudyl for C++: handles with constructors and destructors over hefrudyl.h.
#ifndef HEFRUDYL_HPP
#define HEFRUDYL_HPP

#include <hefrudyl.h>

#include <new>
#include <stdexcept>
#include <string>
#include <utility>
#include <vector>

namespace hefrudyl {

/// What a call of the library writes of a code.
template <std::size_t Room>
std::string text_of(std::size_t (*write)(std::uint8_t, std::uint8_t *, std::size_t), std::uint8_t code) {
  std::uint8_t text[Room];
  std::size_t count = write(code, text, Room);
  return std::string(reinterpret_cast<char *>(text), count);
}

/// What the library has made, freed with its owner. It may be moved, and not copied.
template <typename Made, void (*Free)(Made *)>
class Handle {
public:
  Handle(Handle &&other) noexcept : handle(other.handle) { other.handle = {}; }
  Handle &operator=(Handle &&other) noexcept {
    std::swap(handle, other.handle);
    return *this;
  }
  Handle(const Handle &) = delete;
  Handle &operator=(const Handle &) = delete;
  ~Handle() { Free(&handle); }

protected:
  Handle() = default;
  explicit Handle(Made made) : handle(made) {}
  Made handle = {};
};

/// The name of a rule, as "H12"; empty for none.
inline std::string rule_name(std::uint8_t rule) { return text_of<3>(tl_rule_name, rule); }

/// The text of a code.
inline std::string error_text(std::uint8_t code) { return text_of<128>(tl_error_text, code); }

/// Throws where a call made nothing: for want of memory, or since an argument is out of its range.
inline void require_made(tl_answer answer, const char *arguments) {
  if (answer.code == TL_NO_MEMORY) throw std::bad_alloc();
  if (answer.code != TL_OK) throw std::invalid_argument(arguments);
}

/// A monitor of links.
class Monitor : public Handle<tl_monitor, tl_monitor_free> {
public:
  explicit Monitor(const std::vector<std::uint8_t> &levels, std::uint8_t width = 8,
                   std::uint8_t profile = 1) {
    tl_answer answer = tl_monitor_new(&handle, levels.data(), levels.size(), width, profile);
    require_made(answer, "hefrudyl: levels, width or profile");
  }

  /// A monitor of links that have these liberties (the sum of enum tl_liberty).
  static Monitor under(const std::vector<std::uint8_t> &levels, std::uint8_t liberties, std::uint8_t width = 8) {
    tl_monitor made = {};
    tl_answer answer = tl_monitor_new_under(&made, levels.data(), levels.size(), width, liberties);
    require_made(answer, "hefrudyl: levels or width");
    return Monitor(made, Made());
  }

  /// Judges a beat of a link.
  tl_answer push(std::uint8_t link, const tl_beat &beat) {
    return tl_monitor_push(&handle, link, &beat);
  }

  /// The same, but a beat that breaks a rule isn't taken, and the monitor goes on.
  tl_answer try_push(std::uint8_t link, const tl_beat &beat) {
    return tl_monitor_try_push(&handle, link, &beat);
  }

  /// Judges the beat of a line of a trace, its line feed included.
  tl_answer push_line(const std::string &line) {
    return tl_monitor_push_line(&handle, reinterpret_cast<const std::uint8_t *>(line.data()), line.size());
  }

  /// How many keys are pending on a link, and how many blocks are held there, together.
  tl_answer entries(std::uint8_t link, std::uint64_t &count) { return tl_monitor_entries(&handle, link, &count); }

private:
  struct Made {};
  Monitor(tl_monitor made, Made) : Handle(made) {}
};

/// The name of a situation, as "report-TtoN"; empty for none.
inline std::string situation_name(std::uint8_t situation) { return text_of<32>(tl_situation_name, situation); }

/// The sentence of a situation; empty for none.
inline std::string situation_text(std::uint8_t situation) { return text_of<128>(tl_situation_text, situation); }

/// The name of a bin, as "A-AcquireBlock-NtoB-64"; empty for none.
inline std::string bin_name(std::uint8_t bin) { return text_of<32>(tl_bin_name, bin); }

/// The sentence of a bin; empty for none.
inline std::string bin_text(std::uint8_t bin) { return text_of<128>(tl_bin_text, bin); }

/// What counts the situations of links, and the bins of each link.
class Cover : public Handle<tl_cover, tl_cover_free> {
public:
  explicit Cover(const std::vector<std::uint8_t> &levels, std::uint8_t width = 8, std::uint8_t liberties = 0) {
    tl_answer answer = tl_cover_new(&handle, levels.data(), levels.size(), width, liberties);
    require_made(answer, "hefrudyl: levels or width");
  }

  /// Judges a beat of a link, and counts the situations of the message that begins with it.
  tl_answer push(std::uint8_t link, const tl_beat &beat) { return tl_cover_push(&handle, link, &beat); }

  /// How often the situation of a number below TL_SITUATIONS came, and in which line of a trace first.
  tl_tally count(std::uint8_t situation) {
    tl_tally tally = {};
    require_made(tl_cover_count(&handle, situation, &tally), "hefrudyl: situation");
    return tally;
  }

  /// How often the bin of a number below TL_BINS came on a link, in which line of a trace first, and whether it can come.
  tl_bin_tally bin(std::uint8_t link, std::uint8_t number) {
    tl_bin_tally tally = {};
    require_made(tl_cover_bin(&handle, link, number, &tally), "hefrudyl: link or bin");
    return tally;
  }
};

/// A judge of all links of one manager.
class Judge : public Handle<tl_judge, tl_judge_free> {
public:
  explicit Judge(const std::vector<std::uint8_t> &levels, std::uint8_t width = 8,
                   std::uint8_t profile = 1) {
    tl_answer answer = tl_judge_new(&handle, levels.data(), levels.size(), width, profile);
    require_made(answer, "hefrudyl: levels, width or profile");
  }

  /// A judge of links that have these liberties (the sum of enum tl_liberty).
  static Judge under(const std::vector<std::uint8_t> &levels, std::uint8_t liberties, std::uint8_t width = 8) {
    tl_judge made = {};
    tl_answer answer = tl_judge_new_under(&made, levels.data(), levels.size(), width, liberties);
    require_made(answer, "hefrudyl: levels, width or liberties");
    return Judge(made, Made());
  }

  /// Judges a beat of a link, after the earlier beats of all links (hefrudyl.h has the order).
  tl_answer push(std::uint8_t link, const tl_beat &beat) {
    return tl_judge_push(&handle, link, &beat);
  }

  /// The same, but a beat that breaks a rule isn't taken, and the judge goes on.
  tl_answer try_push(std::uint8_t link, const tl_beat &beat) {
    return tl_judge_try_push(&handle, link, &beat);
  }

  /// Judges the beat of a line of a trace, its line feed included.
  tl_answer push_line(const std::string &line) {
    return tl_judge_push_line(&handle, reinterpret_cast<const std::uint8_t *>(line.data()), line.size());
  }

private:
  struct Made {};
  Judge(tl_judge made, Made) : Handle(made) {}
};

/// A judge of beats and commits of all links of one manager.
class CommitJudge : public Handle<tl_judge, tl_judge_free> {
public:
  /// Of links of these levels that have these liberties; `complete` has 1 for each of which all stores will be judged, and
  /// `zero` says whether memory was zero before the first beat.
  explicit CommitJudge(const std::vector<std::uint8_t> &levels, const std::vector<std::uint8_t> &complete,
                       std::uint8_t width = 8, std::uint8_t liberties = 0, bool zero = false) {
    tl_answer answer = tl_judge_new_commits_zero(&handle, levels.data(), levels.size(), complete.data(), complete.size(),
                                                 zero, width, liberties);
    require_made(answer, "hefrudyl: levels, complete or width");
  }

  /// Judges a beat of a link, after the earlier beats and commits of all links (hefrudyl.h has the order).
  tl_answer push(std::uint8_t link, const tl_beat &beat) { return tl_judge_push(&handle, link, &beat); }

  /// The same, but a beat that breaks a rule isn't taken, and the judge goes on.
  tl_answer try_push(std::uint8_t link, const tl_beat &beat) { return tl_judge_try_push(&handle, link, &beat); }

  /// Judges a commit of a link, after the earlier beats and commits of all links.
  tl_answer commit(std::uint8_t link, const tl_commit &commit) { return tl_judge_commit(&handle, link, &commit); }

  /// The same, but a commit that breaks a rule isn't taken, and the judge goes on.
  tl_answer try_commit(std::uint8_t link, const tl_commit &commit) { return tl_judge_try_commit(&handle, link, &commit); }

  /// Judges the beat or the commit of a line of a trace, its line feed included.
  tl_answer push_line(const std::string &line) {
    return tl_judge_push_line(&handle, reinterpret_cast<const std::uint8_t *>(line.data()), line.size());
  }
};

/// What judges wide beats of links that have these liberties (the sum of enum tl_liberty).
template <typename Made, void (*Free)(Made *),
          tl_answer (*New)(Made *, const std::uint8_t *, std::size_t, std::uint8_t, std::uint8_t),
          tl_answer (*Push)(Made *, std::uint8_t, const tl_wide_beat *)>
class Wide : public Handle<Made, Free> {
public:
  explicit Wide(const std::vector<std::uint8_t> &levels, std::uint8_t width, std::uint8_t liberties = 0) {
    tl_answer answer = New(&this->handle, levels.data(), levels.size(), width, liberties);
    require_made(answer, "hefrudyl: levels, width or liberties");
  }

  /// Judges a wide beat of a link (hefrudyl.h).
  tl_answer push(std::uint8_t link, const tl_wide_beat &beat) { return Push(&this->handle, link, &beat); }
};

/// A monitor of wide beats of links.
using WideMonitor = Wide<tl_monitor, tl_monitor_free, tl_monitor_new_wide, tl_monitor_push_wide>;

/// A judge of wide beats of all links of one manager.
using WideJudge = Wide<tl_judge, tl_judge_free, tl_judge_new_wide, tl_judge_push_wide>;

/// A judge of wide beats and commits of all links of one manager.
class WideCommitJudge : public Handle<tl_judge, tl_judge_free> {
public:
  /// Of links of these levels that have these liberties; `complete` and `zero` are those of CommitJudge.
  explicit WideCommitJudge(const std::vector<std::uint8_t> &levels, const std::vector<std::uint8_t> &complete,
                           std::uint8_t width, std::uint8_t liberties = 0, bool zero = false) {
    tl_answer answer = tl_judge_new_wide_commits_zero(&handle, levels.data(), levels.size(), complete.data(),
                                                      complete.size(), zero, width, liberties);
    require_made(answer, "hefrudyl: levels, complete or width");
  }

  /// Judges a wide beat of a link, after the earlier beats and commits of all links (hefrudyl.h).
  tl_answer push(std::uint8_t link, const tl_wide_beat &beat) { return tl_judge_push_wide(&handle, link, &beat); }

  /// Judges a commit of a link, after the earlier beats and commits of all links.
  tl_answer commit(std::uint8_t link, const tl_commit &commit) { return tl_judge_commit(&handle, link, &commit); }
};

/// A client of a link, with the beats that it has still to send.
class Client : public Handle<tl_client, tl_client_free> {
public:
  explicit Client(std::uint8_t level, std::uint16_t blocks, std::uint8_t sources = 1, std::uint8_t width = 8,
                  std::uint8_t profile = 1) {
    tl_answer answer = tl_client_new(&handle, level, blocks, sources, width, profile);
    require_made(answer, "hefrudyl: level, blocks, sources, width or profile");
  }
  /// Asks for an operation. An Acquire goes out after the beats that wait on channel C already (hefrudyl.h).
  tl_answer ask(const tl_operation &operation, tl_outcome &outcome) {
    return tl_client_ask(&handle, &operation, &outcome);
  }

  /// Offers a beat of channel B or D.
  tl_answer offer(const tl_beat &beat, tl_reception &reception) {
    return tl_client_offer(&handle, &beat, &reception);
  }

  /// Whether a beat would have to wait.
  tl_answer stalls(const tl_beat &beat, std::uint8_t &stalled) { return tl_client_stalls(&handle, &beat, &stalled); }

  /// The next beat to send on a channel; with `pop` it is sent now.
  tl_answer next(std::uint8_t channel, tl_beat &beat) { return tl_client_next(&handle, channel, &beat); }
  tl_answer pop(std::uint8_t channel, tl_beat &beat) { return tl_client_pop(&handle, channel, &beat); }

  /// What is held of a block, and the bytes of its copy.
  tl_answer held(std::uint16_t block, std::uint8_t &perm) { return tl_client_held(&handle, block, &perm); }
  tl_answer copy(std::uint16_t block, std::uint8_t (&bytes)[64]) { return tl_client_copy(&handle, block, &bytes); }

  /// Whether a beat was refused.
  tl_answer closed(std::uint8_t &is_closed) { return tl_client_closed(&handle, &is_closed); }
};

/// A manager of links, with the beats that it has still to send.
class Manager : public Handle<tl_manager, tl_manager_free> {
public:
  explicit Manager(const std::vector<tl_link_config> &links, std::uint16_t blocks, std::uint8_t trackers = 8,
                   std::uint8_t width = 8, std::uint8_t profile = 1) {
    tl_answer answer = tl_manager_new(&handle, links.data(), links.size(), blocks, trackers, width, profile);
    require_made(answer, "hefrudyl: links, blocks, trackers, width or profile");
  }

  /// A manager whose clients have these liberties, of TL_IDS, TL_DROPS, TL_REPORTS and TL_WRITER (hefrudyl.h). With
  /// TL_IDS the Probes of each link have its source; where none are given they are 0.
  static Manager under(const std::vector<tl_link_config> &links, std::uint16_t blocks, std::uint8_t liberties,
                       std::vector<std::uint8_t> probe_sources = {}, std::uint8_t trackers = 8, std::uint8_t width = 8) {
    if (probe_sources.empty()) probe_sources.resize(links.size());
    tl_manager made = {};
    tl_answer answer = tl_manager_new_under(&made, links.data(), links.size(), blocks, trackers, width, liberties,
                                            probe_sources.data(), probe_sources.size());
    require_made(answer, "hefrudyl: links, blocks, trackers, width, liberties or sources of Probes");
    return Manager(made, Made());
  }

  /// Offers a beat of channel A, C or E of a link.
  tl_answer offer(std::uint8_t link, const tl_beat &beat, std::uint8_t &taken) {
    return tl_manager_offer(&handle, link, &beat, &taken);
  }

  /// Whether a beat would have to wait.
  tl_answer stalls(std::uint8_t link, const tl_beat &beat, std::uint8_t &stalled) {
    return tl_manager_stalls(&handle, link, &beat, &stalled);
  }

  /// The next beat to send on a channel of a link; with `pop` it is sent now.
  tl_answer next(std::uint8_t link, std::uint8_t channel, tl_beat &beat) {
    return tl_manager_next(&handle, link, channel, &beat);
  }
  tl_answer pop(std::uint8_t link, std::uint8_t channel, tl_beat &beat) {
    return tl_manager_pop(&handle, link, channel, &beat);
  }

  /// Whether a link takes no beats.
  tl_answer closed(std::uint8_t link, std::uint8_t &is_closed) { return tl_manager_closed(&handle, link, &is_closed); }

private:
  struct Made {};
  Manager(tl_manager made, Made) : Handle(made) {}
};

}  // namespace hefrudyl
#endif
