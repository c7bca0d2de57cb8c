/* Stores and loads of cores from C: a copy that isn't held, a load of another byte, a dirty line that is dropped, links of
   which not all stores are judged, lines of commits, and what is refused. It is built with the address and
   undefined-behaviour sanitizers too. With REFUSALS the library's memory is this file's, and it is refused once, at each place
   in turn. */
#include "want.h"
#include <hefrudyl.h>
#include <stdio.h>
#include <stdlib.h>
#include <string.h>

static const uint8_t levels[3] = {TL_C, TL_C, TL_UH};
static const uint8_t complete[3] = {1, 0, 0};
static const uint8_t widths[3] = {4, 8, 16};

static tl_commit store(uint32_t address, uint8_t size, uint64_t value) {
  return (tl_commit){.kind = TL_COMMIT_STORE, .size = size, .address = address, .value = value};
}
static tl_commit load(uint32_t address, uint8_t size, uint64_t value) {
  return (tl_commit){.kind = TL_COMMIT_LOAD, .size = size, .address = address, .value = value};
}
static tl_commit begin(uint32_t address, uint8_t size) {
  return (tl_commit){.kind = TL_COMMIT_BEGIN, .size = size, .address = address};
}

static tl_answer push(tl_judge *judge, uint8_t link, tl_beat beat) { return tl_judge_push(judge, link, &beat); }
static tl_answer commit(tl_judge *judge, uint8_t link, tl_commit x) { return tl_judge_commit(judge, link, &x); }
static tl_answer try_commit(tl_judge *judge, uint8_t link, tl_commit x) { return tl_judge_try_commit(judge, link, &x); }

static int breaks(tl_answer answer, uint8_t rule) { return answer.code == TL_BROKEN && answer.rule == rule; }

/* Two caches, of the first of which all stores are judged, and a device. */
static tl_judge opened(uint8_t width) {
  tl_judge judge = {0};
  want(tl_judge_new_commits(&judge, levels, 3, complete, 3, width, TL_NO_LIBERTIES).code == TL_OK, "a judge is made");
  return judge;
}

static tl_beat asked(uint8_t channel, uint8_t opcode, uint8_t param, uint8_t width) {
  tl_beat beat = {.channel = channel, .opcode = opcode, .param = param, .size = 6, .mask = (uint16_t)((1u << width) - 1)};
  return beat;
}

/* A message of a block of which byte 0 is this, and the others are 0. */
static void block(tl_judge *judge, uint8_t link, tl_beat beat, uint8_t width, uint8_t byte) {
  for (int k = 0; k < 64 / width; k++) {
    beat.lanes[0] = k == 0 ? byte : 0;
    want(push(judge, link, beat).code == TL_OK, "a beat of a block");
  }
}

/* The link asks for block 0, is granted it toT or toB with this byte 0, and acknowledges it. */
static void granted_with(tl_judge *judge, uint8_t link, uint8_t width, int trunk, uint8_t byte) {
  tl_beat grant = {.channel = TL_CHANNEL_D, .opcode = TL_D_GrantData, .param = trunk ? 0 : 1, .size = 6, .sink = link};
  want(push(judge, link, asked(TL_CHANNEL_A, TL_A_AcquireBlock, trunk ? 1 : 0, width)).code == TL_OK, "an Acquire");
  block(judge, link, grant, width, byte);
  want(push(judge, link, (tl_beat){.channel = TL_CHANNEL_E, .sink = link}).code == TL_OK, "its GrantAck");
}

static void granted(tl_judge *judge, uint8_t link, uint8_t width, int trunk) { granted_with(judge, link, width, trunk, 0); }

/* The first link holds block 0, of zeros, as Trunk. */
static tl_judge with_trunk(uint8_t width) {
  tl_judge judge = opened(width);
  granted(&judge, 0, width, 1);
  return judge;
}

static void probe(tl_judge *judge, uint8_t link, uint8_t width) {
  want(push(judge, link, asked(TL_CHANNEL_B, TL_B_ProbeBlock, 2, width)).code == TL_OK, "a Probe toN");
}

static const tl_beat dropped = {.channel = TL_CHANNEL_C, .opcode = TL_C_ProbeAck, .param = 1, .size = 6};
static const tl_beat given_back = {.channel = TL_CHANNEL_C, .opcode = TL_C_ProbeAckData, .param = 1, .size = 6};

/* A core stores to Trunk, and loads from any copy. */
static void what_a_copy_allows(uint8_t width) {
  tl_judge judge = opened(width);
  want(breaks(try_commit(&judge, 0, store(0, 0, 5)), TL_M5), "a store without a copy is M5");
  want(breaks(try_commit(&judge, 0, load(0, 0, 0)), TL_M5), "a load without a copy is M5");
  want(breaks(try_commit(&judge, 2, store(0, 0, 5)), TL_L1), "a store of a link without a cache is L1");
  want(breaks(try_commit(&judge, 2, begin(0, 0)), TL_L1), "the beginning of a load is L1 there too");
  want(breaks(try_commit(&judge, 3, load(0, 0, 5)), TL_L1), "there is no link 3");
  granted(&judge, 0, width, 0);
  want(breaks(try_commit(&judge, 0, store(0, 0, 5)), TL_M5), "a store to a Branch is M5");
  want(commit(&judge, 0, load(0, 0, 0)).code == TL_OK, "a load from a Branch");
  want(breaks(try_commit(&judge, 1, load(0, 0, 0)), TL_M5), "a load of a link that has no copy");
  tl_judge_free(&judge);
  judge = with_trunk(width);
  want(commit(&judge, 0, store(0, 0, 5)).code == TL_OK, "a store to Trunk");
  want(breaks(try_commit(&judge, 0, store(64, 0, 5)), TL_M5), "a store to another block is M5");
  tl_judge_free(&judge);
}

/* Pieces of each size: a load brings what was stored, the lowest byte at the lowest address. */
static void each_size(uint8_t width) {
  tl_judge judge = with_trunk(width);
  uint64_t value = 0x8877665544332211;
  want(commit(&judge, 0, store(8, 3, value)).code == TL_OK, "a store of 8 bytes");
  for (uint8_t size = 0; size <= 3; size++)
    for (uint32_t at = 0; at < 8; at += 1u << size) {
      uint64_t part = size == 3 ? value : (value >> (8 * at)) & (((uint64_t)1 << (8 << size)) - 1);
      want(try_commit(&judge, 0, load(8 + at, size, part)).code == TL_OK, "a load of what was stored");
      want(breaks(try_commit(&judge, 0, load(8 + at, size, part ^ 1)), TL_M6), "another byte at the lowest address is M6");
      uint64_t high = (uint64_t)1 << ((8 << size) - 1);
      want(breaks(try_commit(&judge, 0, load(8 + at, size, part ^ high)), TL_M6), "another byte at the highest is M6");
    }
  want(try_commit(&judge, 0, load(0, 3, 0)).code == TL_OK, "the bytes before are as they were granted");
  tl_judge_free(&judge);
}

/* A dirty line is dropped: the bytes that were stored are lost. */
static void a_dirty_line(uint8_t width) {
  for (int stored = 0; stored < 2; stored++) {
    tl_judge judge = with_trunk(width);
    want(commit(&judge, 0, store(0, 0, stored ? 5 : 0)).code == TL_OK, "a store");
    probe(&judge, 0, width);
    tl_answer answer = push(&judge, 0, dropped);
    want(stored ? breaks(answer, TL_M7) : answer.code == TL_OK, "a ProbeAck after a store is M7, unless of what memory has");
    tl_judge_free(&judge);
  }
  tl_judge judge = with_trunk(width);
  want(commit(&judge, 0, store(0, 0, 5)).code == TL_OK, "a store");
  probe(&judge, 0, width);
  tl_beat stale = given_back;
  want(breaks(tl_judge_try_push(&judge, 0, &stale), TL_M7), "a ProbeAckData of the byte before is M7");
  block(&judge, 0, given_back, width, 5);
  want(breaks(try_commit(&judge, 0, load(0, 0, 5)), TL_M5), "the copy is given up");
  granted_with(&judge, 1, width, 0, 5);
  tl_judge_free(&judge);
}

/* Of a link of which not all stores are judged, neither what a load of Trunk brings nor what a report gives back is. */
static void only_links_with_all_their_stores(uint8_t width) {
  for (uint8_t link = 0; link < 2; link++) {
    tl_judge judge = opened(width);
    granted(&judge, link, width, 1);
    tl_answer answer = try_commit(&judge, link, load(0, 0, 5));
    want(link == 0 ? breaks(answer, TL_M6) : answer.code == TL_OK, "a load of another byte");
    want(commit(&judge, link, store(1, 0, 6)).code == TL_OK, "a store");
    probe(&judge, link, width);
    tl_beat report = dropped;
    answer = tl_judge_try_push(&judge, link, &report);
    want(link == 0 ? breaks(answer, TL_M7) : answer.code == TL_OK, "a report without data");
    tl_judge_free(&judge);
  }
}

/* A load that began while its link held the block may end later. */
static void a_load_that_takes_time(uint8_t width) {
  for (int begins = 0; begins < 2; begins++) {
    tl_judge judge = with_trunk(width);
    if (begins) want(commit(&judge, 0, begin(0, 2)).code == TL_OK, "a load begins");
    probe(&judge, 0, width);
    want(push(&judge, 0, dropped).code == TL_OK, "the copy is given up");
    tl_answer answer = commit(&judge, 0, load(0, 2, 0));
    want(begins ? answer.code == TL_OK : breaks(answer, TL_M5), "a load after its copy is M5, unless it began before");
    tl_judge_free(&judge);
  }
}

/* Behind a broken rule a judge is closed, unless it was tried. */
static void a_closed_judge(void) {
  for (int by_beat = 0; by_beat < 2; by_beat++) {
    tl_judge judge = with_trunk(8);
    tl_beat wrong = {.channel = TL_CHANNEL_E};
    for (int i = 0; i < 2; i++) {
      want(breaks(try_commit(&judge, 0, load(0, 0, 5)), TL_M6), "a load of another byte is M6, twice");
      want(breaks(tl_judge_try_push(&judge, 0, &wrong), TL_H8), "a GrantAck of nothing is H8, twice");
    }
    if (by_beat)
      want(breaks(push(&judge, 0, wrong), TL_H8), "a beat that breaks a rule");
    else
      want(breaks(commit(&judge, 0, load(0, 0, 5)), TL_M6), "a commit that breaks a rule");
    want(commit(&judge, 0, store(0, 0, 5)).code == TL_CLOSED, "a closed judge takes no commit");
    want(try_commit(&judge, 0, load(0, 0, 0)).code == TL_CLOSED, "nor tries one");
    want(push(&judge, 0, asked(TL_CHANNEL_B, TL_B_ProbeBlock, 2, 8)).code == TL_CLOSED, "nor takes a beat");
    want(tl_judge_try_push(&judge, 0, &wrong).code == TL_CLOSED, "nor tries one");
    want(tl_judge_push_line(&judge, (const uint8_t *)"00 S 0 00000000 05\n", 19).code == TL_CLOSED, "nor takes a line");
    want(commit(&judge, 0, store(1, 1, 5)).code == TL_BAD_ARGUMENT, "a bad argument is one still");
    tl_judge_free(&judge);
    want(judge.full == 0, "a handle that was freed holds nothing");
  }
}

static tl_answer line(tl_judge *judge, const char *text) { return tl_judge_push_line(judge, (const uint8_t *)text, strlen(text)); }

static void lines_of_a_trace(void) {
  tl_judge judge = opened(8), beats = {0};
  want(line(&judge, "00 A 6 1 6 00 00000000 ff - 0\n").code == TL_OK, "a line of a beat");
  for (int k = 0; k < 8; k++) want(line(&judge, "00 D 5 0 6 00 00 0 0000000000000000 0\n").code == TL_OK, "a beat of its GrantData");
  want(line(&judge, "00 E 00\n").code == TL_OK, "its GrantAck");
  want(line(&judge, "00 S 1 00000002 1234\n").code == TL_OK, "a store");
  want(line(&judge, "00 L 2 00000000 12340000\n").code == TL_OK, "a load");
  want(line(&judge, "00 I 3 00000000\n").code == TL_OK, "the beginning of a load");
  want(line(&judge, "00 I 3 00000000 0\n").code == TL_BAD_ARGUMENT, "a field too many");
  want(line(&judge, "00 S 1 00000001 1234\n").code == TL_BAD_ARGUMENT, "an address that isn't aligned");
  want(line(&judge, "00 S 1 00000002 234\n").code == TL_BAD_ARGUMENT, "too few digits");
  want(line(&judge, "00 S 4 00000000 1234\n").code == TL_BAD_ARGUMENT, "16 bytes");
  want(line(&judge, "00 X 1 00000002 1234\n").code == TL_BAD_ARGUMENT, "a letter of neither");
  want(line(&judge, "00 S 1 00000002 1234").code == TL_BAD_ARGUMENT, "no line feed");
  want(line(&judge, "02 S 0 00000000 12\n").rule == TL_L1, "a store of a link without a cache, which closes the judge");
  want(line(&judge, "00 L 0 00000000 00\n").code == TL_CLOSED, "a closed judge stays closed");
  want(tl_judge_new(&beats, levels, 3, 8, 1).code == TL_OK, "a judge of beats alone");
  want(line(&beats, "00 S 0 00000000 05\n").code == TL_BAD_ARGUMENT, "takes no line of a commit");
  want(line(&beats, "00 A 6 1 6 00 00000000 ff - 0\n").code == TL_OK, "and goes on");
  tl_judge_free(&beats);
  tl_judge_free(&judge);
}

static void commits_that_are_none(void) {
  tl_commit bad[] = {store(0, 0, 256),          store(0, 1, 0x10000), store(0, 2, 0x100000000), load(0, 0, 256),
                     load(2, 1, (uint64_t)1 << 63), store(1, 1, 0),       load(2, 2, 0),            begin(4, 3),
                     store(0, 4, 0),            load(0, 255, 0),      begin(0, 4),              begin(0, 0)};
  bad[11].value = 1;
  tl_judge judge = with_trunk(8);
  for (size_t i = 0; i < sizeof bad / sizeof bad[0]; i++) {
    tl_answer answer = commit(&judge, 0, bad[i]);
    want(answer.code == TL_BAD_ARGUMENT && answer.rule == TL_NO_RULE, "a field out of range");
    want(try_commit(&judge, 0, bad[i]).code == TL_BAD_ARGUMENT, "and where it is tried");
  }
  tl_commit other = store(0, 0, 5);
  for (int kind = 3; kind < 256; kind++) {
    other.kind = (uint8_t)kind;
    want(commit(&judge, 0, other).code == TL_BAD_ARGUMENT, "a kind that is none");
  }
  want(commit(&judge, 16, store(0, 0, 5)).code == TL_BAD_ARGUMENT, "link 16");
  want(breaks(try_commit(&judge, 15, store(0, 0, 5)), TL_L1), "link 15, which the judge hasn't");
  want(commit(&judge, 0, load(0, 3, 0)).code == TL_OK, "the judge is as it was");
  want(commit(&judge, 0, store(0, 3, ~(uint64_t)0)).code == TL_OK, "the largest value");
  want(commit(&judge, 0, store(0, 0, 255)).code == TL_OK, "the largest byte");
  tl_judge_free(&judge);
}

static tl_answer made(const uint8_t *of_levels, size_t count, const uint8_t *of_stores, size_t complete_count, uint8_t width) {
  tl_judge judge = {0};
  tl_answer answer = tl_judge_new_commits(&judge, of_levels, count, of_stores, complete_count, width, TL_STANDARD);
  want(judge.full == (answer.code == TL_OK), "a handle holds what was made");
  tl_judge_free(&judge);
  return answer;
}

static void judges_that_are_none(void) {
  uint8_t codes[17] = {0}, flags[17] = {0};
  want(made(codes, 0, flags, 0, 8).code == TL_BAD_ARGUMENT, "no links");
  want(made(codes, 17, flags, 17, 8).code == TL_BAD_ARGUMENT, "17 links");
  want(made(codes, 16, flags, 16, 16).code == TL_OK, "16 links");
  want(made(codes, 2, flags, 1, 8).code == TL_BAD_ARGUMENT, "a number too few");
  want(made(codes, 2, flags, 3, 8).code == TL_BAD_ARGUMENT, "a number too many");
  want(made(codes, 2, flags, 2, 9).code == TL_BAD_ARGUMENT, "a width of 9");
  want(made(codes, 2, flags, 2, 32).code == TL_BAD_ARGUMENT, "a width of 32");
  flags[1] = 2;
  want(made(codes, 2, flags, 2, 8).code == TL_BAD_ARGUMENT, "a number that is neither 0 nor 1");
  flags[1] = 1;
  want(made(codes, 2, flags, 2, 8).code == TL_OK, "a link without a cache, of which all stores are judged");
  codes[1] = 3;
  want(made(codes, 2, flags, 2, 8).code == TL_BAD_ARGUMENT, "level 3");
  tl_judge judge = opened(8);
  want(tl_judge_new_commits(&judge, levels, 3, complete, 3, 8, 0).code == TL_BAD_ARGUMENT, "a handle that holds a judge");
  want(tl_judge_new(&judge, levels, 3, 8, 1).code == TL_BAD_ARGUMENT, "for a judge of beats too");
  want(breaks(commit(&judge, 0, store(0, 0, 5)), TL_M5), "the judge is as it was");
  tl_judge_free(&judge);
}

static void other_handles(void) {
  tl_judge judge = {0};
  tl_wide_beat wide = {.channel = TL_CHANNEL_E};
  want(commit(&judge, 0, store(0, 0, 5)).code == TL_BAD_ARGUMENT, "an empty handle");
  want(try_commit(&judge, 0, store(0, 0, 5)).code == TL_BAD_ARGUMENT, "an empty handle that is tried");
  want(tl_judge_new(&judge, levels, 3, 8, 1).code == TL_OK, "a judge of beats alone");
  want(commit(&judge, 0, store(0, 0, 5)).code == TL_BAD_ARGUMENT, "it takes no commit");
  want(push(&judge, 0, asked(TL_CHANNEL_A, TL_A_AcquireBlock, 1, 8)).code == TL_OK, "it is as it was");
  tl_judge_free(&judge);
  want(tl_judge_new_wide(&judge, levels, 3, 8, 0).code == TL_OK, "a judge of wide beats");
  want(commit(&judge, 0, store(0, 0, 5)).code == TL_BAD_ARGUMENT, "it takes no commit");
  tl_judge_free(&judge);
  judge = opened(8);
  want(tl_judge_push_wide(&judge, 0, &wide).code == TL_BAD_ARGUMENT, "a judge of beats and commits takes no wide beat");
  tl_judge_free(&judge);
}

static void the_rules_have_names(void) {
  static const char *names[] = {"M5", "M6", "M7"};
  for (int i = 0; i < 3; i++) {
    uint8_t name[3];
    want(tl_rule_name((uint8_t)(TL_M5 + i), name, sizeof name) == 2 && memcmp(name, names[i], 2) == 0, names[i]);
  }
  uint8_t none[3];
  want(tl_rule_name(TL_M7 + 1, none, sizeof none) == 0, "no rule is behind M7");
}

#ifdef REFUSALS
#include "refusals.h"

/* Stores and loads of one block and another, each of which is done at the second try if memory was refused. */
static void commits_with_refusals(uint8_t width) {
  long refusals = 0;
  for (long n = 0; n < 60; n++) {
    tl_judge judge = with_trunk(width);
    tl_commit trace[] = {begin(0, 2), store(0, 0, 5), store(0, 0, 6), store(8, 3, 7), load(0, 3, 6), begin(8, 3), load(0, 2, 6), load(8, 3, 7)};
    until_refusal = n;
    for (size_t i = 0; i < sizeof trace / sizeof trace[0]; i++) {
      refused = 0;
      tl_answer answer = commit(&judge, 0, trace[i]);
      if (answer.code == TL_NO_MEMORY) {
        refusals++;
        want(refused, "memory was refused");
        until_refusal = -1;
        answer = commit(&judge, 0, trace[i]);
      }
      want(answer.code == TL_OK, "a commit is taken, at the second try if memory was refused");
    }
    until_refusal = -1;
    want(breaks(try_commit(&judge, 0, load(0, 0, 5)), TL_M6), "a load of what was overwritten");
    probe(&judge, 0, width);
    want(breaks(push(&judge, 0, dropped), TL_M7), "the block is dirty");
    tl_judge_free(&judge);
  }
  want(refusals > 0, "commits take memory");
}

static void no_memory_for_a_judge(void) {
  long made_it = 0;
  for (long n = 0; n < 24; n++) {
    tl_judge judge = {0};
    until_refusal = n;
    refused = 0;
    tl_answer answer = tl_judge_new_commits(&judge, levels, 3, complete, 3, 8, TL_NO_LIBERTIES);
    until_refusal = -1;
    want(refused ? answer.code == TL_NO_MEMORY && !judge.full : answer.code == TL_OK, "a judge");
    made_it += answer.code == TL_OK;
    tl_judge_free(&judge);
  }
  want(made_it > 0, "a judge is made");
}
#endif

int main(void) {
  for (int i = 0; i < 3; i++) {
    what_a_copy_allows(widths[i]);
    each_size(widths[i]);
    a_dirty_line(widths[i]);
    only_links_with_all_their_stores(widths[i]);
    a_load_that_takes_time(widths[i]);
  }
  a_closed_judge();
  lines_of_a_trace();
  commits_that_are_none();
  judges_that_are_none();
  other_handles();
  the_rules_have_names();
#ifdef REFUSALS
  for (int i = 0; i < 3; i++) commits_with_refusals(widths[i]);
  no_memory_for_a_judge();
#endif
  printf("%d failures\n", failures);
  return failures != 0;
}
