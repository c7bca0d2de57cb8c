// The words of tl_words.svh: of each how many Stores have begun and how many have ended. The number of a Store and that of its
// word make the value that it stores, so that a Load tells which Store it found.
#include <svdpi.h>

#include <cstdint>
#include <map>

namespace {

struct Word {
  std::uint32_t begun = 0, ended = 0;
};

constexpr std::uint32_t NUMBERS = 1u << 18;  // a Store's number in a value, 14 bits are left for the word

std::map<int, Word> words;

std::uint32_t mark_of(int word, std::uint32_t number) {
  return static_cast<std::uint32_t>(word) << 18 | number % NUMBERS;
}

// In 8 bytes the mark stands twice, once inverted.
std::uint64_t value_of(int word, std::uint32_t number, int bytes) {
  const std::uint32_t mark = mark_of(word, number);
  return bytes == 4 ? mark : static_cast<std::uint64_t>(~mark) << 32 | mark;
}

}  // namespace

extern "C" {

long long tl_word_to_store(int word, int bytes) { return static_cast<long long>(value_of(word, words[word].begun + 1, bytes)); }

void tl_word_store_begins(int word) { words[word].begun++; }

void tl_word_store_ends(int word) { words[word].ended++; }

// How many Stores have ended: asked when a Load begins.
int tl_word_stored(int word) { return static_cast<int>(words[word].ended); }

// Whether a Load that ends now and began when `stored` Stores had ended may find the value. Before any had, it may be anything.
int tl_word_fits(int word, int bytes, int stored, long long value) {
  const std::uint64_t found = static_cast<std::uint64_t>(value) & (bytes == 4 ? 0xffffffffu : ~std::uint64_t(0));
  if (stored == 0) return 1;
  for (auto number = static_cast<std::uint32_t>(stored); number <= words[word].begun; number++)
    if (found == value_of(word, number, bytes)) return 1;
  return 0;
}
}
