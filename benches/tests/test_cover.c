/* A cover from C: what it counts, where a situation came first, the bins of each link, what a broken rule leaves, and
   what is refused. It is built with the address and undefined-behaviour sanitizers too. */
#include "want.h"
#include <hefrudyl.h>
#include <stdio.h>
#include <string.h>

static const uint8_t levels[1] = {TL_C};
static const tl_beat acquire = {
    .channel = TL_CHANNEL_A, .opcode = TL_A_AcquirePerm, .param = TL_NtoT, .size = 6, .mask = 0xff};
static const tl_beat grant = {.channel = TL_CHANNEL_D, .opcode = TL_D_Grant, .param = 0, .size = 6};
static const tl_beat ack = {.channel = TL_CHANNEL_E};
static const tl_beat probe = {
    .channel = TL_CHANNEL_B, .opcode = TL_B_ProbeBlock, .param = 1, .size = 6, .mask = 0xff};
static const tl_beat report = {.channel = TL_CHANNEL_C, .opcode = TL_C_ProbeAck, .param = TL_TtoB, .size = 6};

static tl_tally count_of(tl_cover *cover, const char *name) {
  tl_tally tally = {0, 0};
  for (uint8_t i = 0; i < TL_SITUATIONS; i++) {
    uint8_t letters[32];
    size_t count = tl_situation_name(i, letters, sizeof letters);
    if (count == strlen(name) && memcmp(letters, name, count) == 0)
      want(tl_cover_count(cover, i, &tally).code == TL_OK, "a count");
  }
  return tally;
}

static int is(tl_tally tally, uint64_t count, uint64_t line) { return tally.count == count && tally.line == line; }

static void a_probe_of_a_writer(void) {
  tl_cover cover = {0};
  want(tl_cover_new(&cover, levels, 1, 8, TL_NO_LIBERTIES).code == TL_OK, "a cover is made");
  const tl_beat beats[5] = {acquire, grant, ack, probe, report};
  for (int i = 0; i < 5; i++) want(tl_cover_push(&cover, 0, &beats[i]).code == TL_OK, "a beat");
  want(is(count_of(&cover, "acquire-NtoT"), 1, 2), "an Acquire in line 2");
  want(is(count_of(&cover, "grant-NtoT"), 1, 3), "its Grant in line 3");
  want(is(count_of(&cover, "probe-toB"), 1, 5), "a Probe in line 5");
  want(is(count_of(&cover, "report-TtoB"), 1, 6), "a report in line 6");
  want(is(count_of(&cover, "report-TtoN"), 0, 0), "no other report");
  tl_answer told = tl_cover_push(&cover, 0, &report);
  want(told.code == TL_BROKEN && told.rule == TL_H10, "a second report is H10");
  want(tl_cover_push(&cover, 0, &probe).code == TL_CLOSED, "a closed cover stays closed");
  want(is(count_of(&cover, "report-TtoB"), 1, 6), "the beat at fault isn't counted");
  tl_cover_free(&cover);
  want(cover.full == 0, "a handle that was freed holds nothing");
}

static tl_bin_tally bin_of(tl_cover *cover, uint8_t link, const char *name) {
  tl_bin_tally tally = {7, 7, 7};
  for (uint8_t i = 0; i < TL_BINS; i++) {
    uint8_t letters[32];
    size_t count = tl_bin_name(i, letters, sizeof letters);
    if (count == strlen(name) && memcmp(letters, name, count) == 0)
      want(tl_cover_bin(cover, link, i, &tally).code == TL_OK, "a bin");
  }
  return tally;
}

static int is_bin(tl_bin_tally tally, uint64_t count, uint64_t line, uint8_t possible) {
  return tally.count == count && tally.line == line && tally.possible == possible;
}

static void the_bins_of_two_links(void) {
  static const uint8_t two_levels[2] = {TL_C, TL_UL};
  static const tl_beat get = {.channel = TL_CHANNEL_A, .opcode = TL_A_Get, .size = 2, .address = 0x48, .mask = 0x0f};
  tl_cover cover = {0};
  want(tl_cover_new(&cover, two_levels, 2, 8, TL_NO_LIBERTIES).code == TL_OK, "a cover of two links");
  const tl_beat beats[5] = {acquire, grant, ack, probe, report};
  for (int i = 0; i < 5; i++) want(tl_cover_push(&cover, 0, &beats[i]).code == TL_OK, "a beat");
  want(tl_cover_push(&cover, 1, &get).code == TL_OK, "a Get on link 1");
  want(is_bin(bin_of(&cover, 0, "A-AcquirePerm-NtoT-64"), 1, 2, 1), "an Acquire in line 2");
  want(is_bin(bin_of(&cover, 0, "D-Grant-toT-64"), 1, 3, 1), "its Grant in line 3");
  want(is_bin(bin_of(&cover, 0, "grant-NtoT"), 1, 3, 1), "by which the link's permission grows");
  want(is_bin(bin_of(&cover, 0, "E-GrantAck"), 1, 4, 1), "its GrantAck in line 4");
  want(is_bin(bin_of(&cover, 0, "B-ProbeBlock-toB-64"), 1, 5, 1), "a Probe in line 5");
  want(is_bin(bin_of(&cover, 0, "report-TtoB-toB"), 1, 6, 1), "its answer in line 6");
  want(is_bin(bin_of(&cover, 0, "waited-0"), 1, 6, 1), "right after it");
  want(is_bin(bin_of(&cover, 0, "pending-acquire-1"), 1, 2, 1), "no other Acquire was pending");
  want(is_bin(bin_of(&cover, 0, "pending-grant-2"), 0, 0, 1), "nor another Grant");
  want(is_bin(bin_of(&cover, 0, "A-Get-4"), 0, 0, 1), "no Get on link 0");
  want(is_bin(bin_of(&cover, 0, "C-Release-TtoT-64"), 0, 0, 0), "without liberties no Release keeps what is held");
  want(is_bin(bin_of(&cover, 1, "A-Get-4"), 1, 7, 1), "a Get in line 7");
  want(is_bin(bin_of(&cover, 1, "access-4-at-8"), 1, 7, 1), "at a multiple of 8");
  want(is_bin(bin_of(&cover, 1, "pending-get-1"), 1, 7, 1), "while none is pending");
  want(is_bin(bin_of(&cover, 1, "pending-probe-1"), 0, 0, 0), "a link of level UL has no Probes");
  want(is_bin(bin_of(&cover, 1, "A-Get-8"), 0, 0, 1), "a Get of a beat may come");
  want(is_bin(bin_of(&cover, 1, "A-Get-16"), 0, 0, 0), "a link of level UL has no Get of two beats");
  want(is_bin(bin_of(&cover, 1, "access-16-at-16"), 0, 0, 0), "nor another access of two");
  want(is_bin(bin_of(&cover, 1, "A-AcquirePerm-NtoT-64"), 0, 0, 0), "nor an Acquire");
  tl_cover_free(&cover);
}

static void what_bins_refuse(void) {
  tl_bin_tally tally = {7, 7, 7};
  tl_cover cover = {0};
  want(tl_cover_bin(&cover, 0, 0, &tally).code == TL_BAD_ARGUMENT, "a handle that holds nothing");
  want(tl_cover_new(&cover, levels, 1, 8, 0).code == TL_OK, "a cover of one link");
  want(tl_cover_bin(&cover, 1, 0, &tally).code == TL_BAD_ARGUMENT, "a link that it hasn't");
  want(tl_cover_bin(&cover, 255, 0, &tally).code == TL_BAD_ARGUMENT, "a link that none has");
  want(tl_cover_bin(&cover, 0, TL_BINS, &tally).code == TL_BAD_ARGUMENT, "a bin");
  tl_cover_free(&cover);
  tl_monitor monitor = {0};
  want(tl_monitor_new(&monitor, levels, 1, 8, 1).code == TL_OK, "a monitor");
  memcpy(&cover, &monitor, sizeof cover);
  want(tl_cover_bin(&cover, 0, 0, &tally).code == TL_BAD_ARGUMENT, "a handle of a monitor");
  want(is_bin(tally, 7, 7, 7), "nothing is told");
  tl_cover_free(&cover);
}

static void what_is_refused(void) {
  tl_cover cover = {0};
  tl_tally tally = {7, 7};
  want(tl_cover_count(&cover, 0, &tally).code == TL_BAD_ARGUMENT && is(tally, 7, 7), "a handle that holds nothing");
  want(tl_cover_new(&cover, levels, 0, 8, 0).code == TL_BAD_ARGUMENT, "no links");
  want(tl_cover_new(&cover, levels, 1, 7, 0).code == TL_BAD_ARGUMENT, "a width");
  want(tl_cover_new(&cover, levels, 1, 16, TL_STANDARD).code == TL_OK, "a cover of links with liberties");
  want(tl_cover_new(&cover, levels, 1, 8, 0).code == TL_BAD_ARGUMENT, "a handle that holds a cover");
  want(tl_cover_push(&cover, 16, &ack).code == TL_BAD_ARGUMENT, "a link");
  want(tl_cover_count(&cover, TL_SITUATIONS, &tally).code == TL_BAD_ARGUMENT && is(tally, 7, 7), "a situation");
  tl_cover_free(&cover);
}

static void names_and_sentences(void) {
  uint8_t letters[128];
  want(tl_situation_name(0, letters, 5) == 5 && memcmp(letters, "probe", 5) == 0, "as much of a name as there is room for");
  for (uint8_t i = 0; i < TL_SITUATIONS; i++) {
    size_t name = tl_situation_name(i, letters, sizeof letters);
    want(0 < name && name <= 32, "a name");
    size_t text = tl_situation_text(i, letters, sizeof letters);
    want(0 < text && text < 128, "a sentence");
  }
  want(tl_situation_name(TL_SITUATIONS, letters, sizeof letters) == 0, "no name");
  want(tl_situation_text(255, letters, sizeof letters) == 0, "no sentence");
  for (uint8_t i = 0; i < TL_BINS; i++) {
    size_t name = tl_bin_name(i, letters, sizeof letters);
    want(0 < name && name <= 32, "a bin's name");
    size_t text = tl_bin_text(i, letters, sizeof letters);
    want(0 < text && text < 128, "a bin's sentence");
  }
  want(tl_bin_name(0, letters, 5) == 5 && memcmp(letters, "A-Put", 5) == 0, "as much of it as there is room for");
  want(tl_bin_name(TL_BINS, letters, sizeof letters) == 0, "no bin's name");
  want(tl_bin_text(TL_BINS, letters, sizeof letters) == 0, "no bin's sentence");
}

int main(void) {
  a_probe_of_a_writer();
  the_bins_of_two_links();
  what_bins_refuse();
  what_is_refused();
  names_and_sentences();
  printf("%d failures\n", failures);
  return failures != 0;
}
