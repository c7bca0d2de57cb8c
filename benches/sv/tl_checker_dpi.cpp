// The DPI side of tl_manager_checker, tl_link_checker and tl_commit_checker: a proved monitor, a proved judge of all links, or one
// of beats and commits, for each, and with COVER a proved cover. Nothing is judged or counted here: the words of a beat are put
// into a tl_beat, those of a commit into a tl_commit, and what the library answers is handed back.
#include "tl_dpi.hpp"

#include <cstdio>
#include <memory>
#include <utility>

namespace {

constexpr tl_answer OF_ANOTHER_KIND = {TL_BAD_ARGUMENT, TL_NO_RULE};

// What a handle of SystemVerilog stands for: the beats of its links are wide, or they aren't, and it judges commits, or it doesn't.
struct Checker {
  std::unique_ptr<hefrudyl::Cover> cover;  // what counts situations, where they are counted
  bool counts = true;                      // no beat was at fault

  virtual ~Checker() = default;
  virtual tl_answer push(std::uint8_t link, const tl_beat &beat) = 0;
  virtual tl_answer push_wide(std::uint8_t, const tl_wide_beat &) { return OF_ANOTHER_KIND; }
  virtual tl_answer commit(std::uint8_t, const tl_commit &) { return OF_ANOTHER_KIND; }

  // Judges a beat, and counts its situations where no beat was at fault.
  tl_answer take(std::uint8_t link, const tl_beat &beat) {
    const tl_answer answer = push(link, beat);
    counts = counts && answer.code == TL_OK;
    if (cover && counts && cover->push(link, beat).code != TL_OK) cover.reset();
    return answer;
  }
};

template <typename Judging> struct CheckerBy : Checker {
  Judging judging;
  explicit CheckerBy(Judging &&made) : judging(std::move(made)) {}
  tl_answer push(std::uint8_t link, const tl_beat &beat) override { return judging.try_push(link, beat); }
};

struct CommitChecker : CheckerBy<hefrudyl::CommitJudge> {
  using CheckerBy::CheckerBy;
  tl_answer commit(std::uint8_t link, const tl_commit &commit) override { return judging.try_commit(link, commit); }
};

template <typename Judging> struct WideCheckerBy : Checker {
  Judging judging;
  explicit WideCheckerBy(Judging &&made) : judging(std::move(made)) {}
  tl_answer push(std::uint8_t, const tl_beat &) override { return OF_ANOTHER_KIND; }
  tl_answer push_wide(std::uint8_t link, const tl_wide_beat &beat) override { return judging.push(link, beat); }
};

struct WideCommitChecker : WideCheckerBy<hefrudyl::WideCommitJudge> {
  using WideCheckerBy::WideCheckerBy;
  tl_answer commit(std::uint8_t link, const tl_commit &commit) override { return judging.commit(link, commit); }
};

// How many situations came, those that came, and those that didn't, in the words of `tltool cover`.
std::string situations_of(hefrudyl::Cover &cover) {
  int seen = 0;
  std::string came, missing;
  for (std::uint8_t i = 0; i < TL_SITUATIONS; i++) {
    const tl_tally tally = cover.count(i);
    const std::string name = "  " + hefrudyl::situation_name(i), text = ": " + hefrudyl::situation_text(i) + "\n";
    if (tally.count == 0) {
      missing += name + " never" + text;
    } else {
      seen++;
      came += name + " " + std::to_string(tally.count) + ", line " + std::to_string(tally.line) + text;
    }
  }
  return std::to_string(seen) + " of " + std::to_string(TL_SITUATIONS) + " situations seen\n" + came + missing;
}

}  // namespace

// What these liberties are with those of a profile.
static std::uint8_t all_liberties(int profile, int liberties) {
  return static_cast<std::uint8_t>(liberties | (profile == 2 ? TL_WRITER : TL_NO_LIBERTIES));
}

// A judge or a monitor of these links, under a profile or, where there are liberties, under them.
template <typename Judging>
static std::unique_ptr<Checker> checker_of(const std::vector<std::uint8_t> &levels, std::uint8_t width, int profile,
                                           int liberties) {
  if (liberties == 0)
    return std::make_unique<CheckerBy<Judging>>(Judging(levels, width, static_cast<std::uint8_t>(profile)));
  return std::make_unique<CheckerBy<Judging>>(Judging::under(levels, all_liberties(profile, liberties), width));
}

// The same of links with wide beats.
template <typename Judging>
static std::unique_ptr<Checker> wide_checker_of(const std::vector<std::uint8_t> &levels, std::uint8_t width, int profile,
                                                int liberties) {
  return std::make_unique<WideCheckerBy<Judging>>(Judging(levels, width, all_liberties(profile, liberties)));
}

static std::unique_ptr<Checker> made(const std::vector<std::uint8_t> &levels, std::uint8_t width, int profile, int liberties,
                                     bool together, bool wide) {
  if (wide)
    return together ? wide_checker_of<hefrudyl::WideJudge>(levels, width, profile, liberties)
                    : wide_checker_of<hefrudyl::WideMonitor>(levels, width, profile, liberties);
  return together ? checker_of<hefrudyl::Judge>(levels, width, profile, liberties)
                  : checker_of<hefrudyl::Monitor>(levels, width, profile, liberties);
}

// So many numbers of so many bits each, the first in the lowest bits.
static std::vector<std::uint8_t> numbers_of(int count, int bits, int packed) {
  std::vector<std::uint8_t> numbers;
  for (int i = 0; i < count; i++)
    numbers.push_back(static_cast<std::uint8_t>((static_cast<unsigned>(packed) >> (bits * i)) & ((1u << bits) - 1)));
  return numbers;
}

// What `make` makes, as a handle of SystemVerilog; none where it throws.
template <typename Make> static void *handle_of(Make make) {
  try {
    Checker *checker = make().release();
    return checker;
  } catch (const std::exception &error) {
    std::fprintf(stderr, "tl_checker: %s\n", error.what());
    return nullptr;
  }
}

// `levels` has two bits for each link, the lowest for link 0; `liberties` is a sum of enum tl_liberty.
extern "C" void *tl_checker_open(int links, int levels, int width, int profile, int liberties, int together, int covers,
                                 int wide) {
  return handle_of([=] {
    const auto codes = numbers_of(links, 2, levels);
    const auto bytes = static_cast<std::uint8_t>(width);
    auto checker = made(codes, bytes, profile, liberties, together != 0, wide != 0);
    if (covers) checker->cover = std::make_unique<hefrudyl::Cover>(codes, bytes, all_liberties(profile, liberties));
    return checker;
  });
}

// A judge of beats and commits of these links, or of wide beats and commits.
template <typename Made, typename Judging>
static std::unique_ptr<Checker> commit_checker_of(const std::vector<std::uint8_t> &levels, const std::vector<std::uint8_t> &complete,
                                                  std::uint8_t width, std::uint8_t liberties, bool zero) {
  return std::make_unique<Made>(Judging(levels, complete, width, liberties, zero));
}

// The same of beats and commits; `complete` has a bit for each link of which all stores are judged, and `zero` says whether memory
// is zero before the first beat.
extern "C" void *tl_checker_open_commits(int links, int levels, int complete, int zero, int width, int profile, int liberties,
                                         int wide) {
  return handle_of([=] {
    const auto make = wide ? commit_checker_of<WideCommitChecker, hefrudyl::WideCommitJudge>
                           : commit_checker_of<CommitChecker, hefrudyl::CommitJudge>;
    return make(numbers_of(links, 2, levels), numbers_of(links, 1, complete), static_cast<std::uint8_t>(width),
                all_liberties(profile, liberties), zero != 0);
  });
}

// The answer is the code, and 256 times the number of the rule. A beat that breaks one isn't taken, and the next is judged
// as if it weren't there.
extern "C" int tl_checker_push(void *checker, int link, long long fields, int address, int mask,
                               const svBitVecVal *lanes) {
  return tl_dpi::number_of(static_cast<Checker *>(checker)->take(static_cast<std::uint8_t>(link),
                                                                 tl_dpi::beat_of(fields, address, mask, lanes)));
}

// The same of a wide beat. Behind one that breaks a rule none is judged.
extern "C" int tl_checker_push_wide(void *checker, int link, long long fields, int ids, long long address, long long mask,
                                    const svBitVecVal *lanes) {
  return tl_dpi::number_of(static_cast<Checker *>(checker)->push_wide(
      static_cast<std::uint8_t>(link), tl_dpi::wide_beat_of(fields, ids, address, mask, lanes)));
}

// The same of a commit, by the letter of its line.
extern "C" int tl_checker_commit(void *checker, int link, int letter, int size, long long address, long long value) {
  const auto kind = letter == 'S' ? TL_COMMIT_STORE : letter == 'L' ? TL_COMMIT_LOAD : TL_COMMIT_BEGIN;
  const tl_commit commit = {static_cast<std::uint64_t>(value), static_cast<std::uint64_t>(address),
                            static_cast<std::uint8_t>(kind), static_cast<std::uint8_t>(size)};
  return tl_dpi::number_of(static_cast<Checker *>(checker)->commit(static_cast<std::uint8_t>(link), commit));
}

// The name of a rule. A beat whose opcode isn't in use is none, and 0 stands for that: F4 in a trace.
extern "C" const char *tl_checker_rule(int rule) {
  static std::string name;
  name = rule == 0 ? "F4" : hefrudyl::rule_name(static_cast<std::uint8_t>(rule));
  return name.c_str();
}

// The situations of the beats before the first at fault, in lines.
extern "C" const char *tl_checker_situations(void *checker) {
  static std::string text;
  const auto &cover = static_cast<Checker *>(checker)->cover;
  text = cover ? situations_of(*cover) : "no memory to count situations\n";
  return text.c_str();
}

// Before a simulation is aborted: what its files have of it, the traces too, is written.
extern "C" void tl_checker_flush() { std::fflush(nullptr); }

extern "C" void tl_checker_close(void *checker) { delete static_cast<Checker *>(checker); }
