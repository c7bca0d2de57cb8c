/* Stores and loads of cores on wide links from C, at each width of a beat: what a copy allows, a dirty line that is dropped, blocks
   whose addresses differ in their higher halves, limits of names, and what is refused. It is built with the address and
   undefined-behaviour sanitizers too. With REFUSALS the library's memory is this file's, and it is refused once, at each place in
   turn. */
#include "want.h"
#include <hefrudyl.h>
#include <stdio.h>
#include <stdlib.h>
#include <string.h>

static const uint8_t levels[3] = {TL_C, TL_C, TL_UH};
static const uint8_t complete[3] = {1, 0, 0};
static const uint8_t widths[5] = {4, 8, 16, 32, 64};
static const uint64_t BASE = 0x180000000u; /* of the block that is granted */
static const uint64_t LOW = 0x80000000u;   /* its lower half alone */

static tl_commit store(uint64_t address, uint8_t size, uint64_t value) {
  return (tl_commit){.kind = TL_COMMIT_STORE, .size = size, .address = address, .value = value};
}
static tl_commit load(uint64_t address, uint8_t size, uint64_t value) {
  return (tl_commit){.kind = TL_COMMIT_LOAD, .size = size, .address = address, .value = value};
}
static tl_commit begin(uint64_t address, uint8_t size) {
  return (tl_commit){.kind = TL_COMMIT_BEGIN, .size = size, .address = address};
}

static tl_answer push(tl_judge *judge, uint8_t link, tl_wide_beat beat) { return tl_judge_push_wide(judge, link, &beat); }
static tl_answer commit(tl_judge *judge, uint8_t link, tl_commit x) { return tl_judge_commit(judge, link, &x); }

static int breaks(tl_answer answer, uint8_t rule) { return answer.code == TL_BROKEN && answer.rule == rule; }

/* Two caches, of the first of which all stores are judged, and a device. */
static tl_judge opened(uint8_t width) {
  tl_judge judge = {0};
  want(tl_judge_new_wide_commits(&judge, levels, 3, complete, 3, width, TL_NO_LIBERTIES).code == TL_OK, "a judge is made");
  return judge;
}

static uint64_t all_lanes(uint8_t width) { return width == 64 ? ~(uint64_t)0 : ((uint64_t)1 << width) - 1; }

static tl_wide_beat asked(uint8_t channel, uint8_t opcode, uint8_t param, uint8_t width, uint64_t address) {
  tl_wide_beat beat = {.channel = channel, .opcode = opcode, .param = param, .size = 6, .address = address, .mask = all_lanes(width)};
  if (channel == TL_CHANNEL_A) beat.source = 0x1ff;
  return beat;
}

/* The beats of a block whose byte 0 is this, and the others are 0, as far as they are taken. */
static tl_answer block(tl_judge *judge, uint8_t link, tl_wide_beat beat, uint8_t width, uint8_t byte) {
  tl_answer answer = {TL_OK, TL_NO_RULE};
  for (int k = 0; k < 64 / width && answer.code == TL_OK; k++) {
    beat.lanes[0] = k == 0 ? byte : 0;
    answer = push(judge, link, beat);
  }
  return answer;
}

/* The link asks for the block at this address, is granted it toT or toB, of zeros, and acknowledges it. */
static void granted(tl_judge *judge, uint8_t link, uint8_t width, int trunk, uint64_t address) {
  tl_wide_beat grant = {.channel = TL_CHANNEL_D, .opcode = TL_D_GrantData, .param = trunk ? 0 : 1, .size = 6, .source = 0x1ff, .sink = 0x3ff};
  want(push(judge, link, asked(TL_CHANNEL_A, TL_A_AcquireBlock, trunk ? 1 : 0, width, address)).code == TL_OK, "an Acquire");
  want(block(judge, link, grant, width, 0).code == TL_OK, "its Grant");
  want(push(judge, link, (tl_wide_beat){.channel = TL_CHANNEL_E, .sink = 0x3ff}).code == TL_OK, "its GrantAck");
}

static tl_judge with_trunk(uint8_t width) {
  tl_judge judge = opened(width);
  granted(&judge, 0, width, 1, BASE);
  return judge;
}

static void probe(tl_judge *judge, uint8_t width) {
  want(push(judge, 0, asked(TL_CHANNEL_B, TL_B_ProbeBlock, 2, width, BASE)).code == TL_OK, "a Probe toN");
}

static tl_wide_beat report(uint8_t opcode) {
  return (tl_wide_beat){.channel = TL_CHANNEL_C, .opcode = opcode, .param = 1, .size = 6, .address = BASE};
}

/* What breaks a rule closes a judge, so each is of another one. */
static void what_a_copy_allows(uint8_t width) {
  const struct {
    int granted; /* 0: not, 1: toB, 2: toT */
    uint8_t link;
    tl_commit commit;
    uint8_t rule;
  } of[] = {
      {0, 0, store(BASE, 0, 5), TL_M5},      {0, 0, load(BASE, 0, 0), TL_M5},       {0, 2, store(BASE, 0, 5), TL_L1},
      {0, 3, load(BASE, 0, 5), TL_L1},       {1, 0, store(BASE, 0, 5), TL_M5},      {1, 0, load(BASE, 0, 0), TL_NO_RULE},
      {1, 1, load(BASE, 0, 0), TL_M5},       {2, 0, store(BASE, 0, 5), TL_NO_RULE}, {2, 0, store(BASE + 64, 0, 5), TL_M5},
      {2, 0, store(LOW, 0, 5), TL_M5},       {2, 0, load(LOW, 3, 0), TL_M5},        {2, 0, load(BASE + 56, 3, 0), TL_NO_RULE},
      {2, 0, load(BASE + 63, 0, 1), TL_M6},  {2, 0, begin(BASE + 4, 2), TL_NO_RULE}, {2, 0, store(~(uint64_t)7, 3, 5), TL_M5},
  };
  for (size_t i = 0; i < sizeof of / sizeof of[0]; i++) {
    tl_judge judge = opened(width);
    if (of[i].granted) granted(&judge, 0, width, of[i].granted == 2, BASE);
    tl_answer answer = commit(&judge, of[i].link, of[i].commit);
    want(of[i].rule ? breaks(answer, of[i].rule) : answer.code == TL_OK, "what a copy allows");
    tl_answer after = commit(&judge, 0, begin(BASE, 0));
    want(of[i].rule ? after.code == TL_CLOSED : after.code == TL_OK || breaks(after, TL_M5), "a closed judge stays closed");
    tl_judge_free(&judge);
    want(judge.full == 0, "a handle that was freed holds nothing");
  }
}

/* A load brings what was stored, the lowest byte at the lowest address. */
static void each_size(uint8_t width) {
  uint64_t value = 0x8877665544332211;
  for (uint8_t size = 0; size <= 3; size++)
    for (uint32_t at = 0; at < 8; at += 1u << size)
      for (int wrong = 0; wrong < 2; wrong++) {
        tl_judge judge = with_trunk(width);
        uint64_t part = size == 3 ? value : (value >> (8 * at)) & (((uint64_t)1 << (8 << size)) - 1);
        want(commit(&judge, 0, store(BASE + 40, 3, value)).code == TL_OK, "a store of 8 bytes");
        tl_answer answer = commit(&judge, 0, load(BASE + 40 + at, size, part ^ (uint64_t)wrong));
        want(wrong ? breaks(answer, TL_M6) : answer.code == TL_OK, "a load of what was stored");
        tl_judge_free(&judge);
      }
}

/* A dirty line is dropped, or given back with another byte: the byte that was stored is lost. */
static void a_dirty_line(uint8_t width) {
  for (int stored = 0; stored < 2; stored++)
    for (int dropped = 0; dropped < 2; dropped++) {
      tl_judge judge = with_trunk(width);
      want(commit(&judge, 0, store(BASE, 0, stored ? 5 : 0)).code == TL_OK, "a store");
      probe(&judge, width);
      tl_answer answer = dropped ? push(&judge, 0, report(TL_C_ProbeAck)) : block(&judge, 0, report(TL_C_ProbeAckData), width, 0);
      want(stored ? breaks(answer, TL_M7) : answer.code == TL_OK, "a report of another byte than was stored is M7");
      tl_judge_free(&judge);
    }
  tl_judge judge = with_trunk(width);
  want(commit(&judge, 0, store(BASE, 0, 5)).code == TL_OK, "a store");
  probe(&judge, width);
  want(block(&judge, 0, report(TL_C_ProbeAckData), width, 5).code == TL_OK, "what was stored is given back");
  want(breaks(commit(&judge, 0, load(BASE, 0, 5)), TL_M5), "the copy is given up");
  tl_judge_free(&judge);
}

/* Of a link of which not all stores are judged, neither what a load of Trunk brings nor what a report gives back is. */
static void only_links_with_all_their_stores(uint8_t width) {
  for (uint8_t link = 0; link < 2; link++) {
    tl_judge judge = opened(width);
    granted(&judge, link, width, 1, BASE);
    tl_answer answer = commit(&judge, link, load(BASE, 0, 5));
    want(link == 0 ? breaks(answer, TL_M6) : answer.code == TL_OK, "a load of another byte");
    tl_judge_free(&judge);
  }
}

static void commits_that_are_none(void) {
  tl_commit bad[] = {store(BASE, 0, 256),     store(BASE, 1, 0x10000), store(BASE, 2, 0x100000000), load(BASE, 0, 256),
                     store(BASE + 1, 1, 0),   load(BASE + 2, 2, 0),    begin(BASE + 4, 3),          store(BASE, 4, 0),
                     load(BASE, 255, 0),      begin(BASE, 4),          begin(BASE, 0),              store(~(uint64_t)0, 3, 0)};
  bad[10].value = 1;
  tl_judge judge = with_trunk(32);
  for (size_t i = 0; i < sizeof bad / sizeof bad[0]; i++) {
    tl_answer answer = commit(&judge, 0, bad[i]);
    want(answer.code == TL_BAD_ARGUMENT && answer.rule == TL_NO_RULE, "a field out of range");
  }
  tl_commit other = store(BASE, 0, 5);
  for (int kind = 3; kind < 256; kind++) {
    other.kind = (uint8_t)kind;
    want(commit(&judge, 0, other).code == TL_BAD_ARGUMENT, "a kind that is none");
  }
  tl_beat narrow = {.channel = TL_CHANNEL_E};
  tl_wide_beat holed = asked(TL_CHANNEL_A, TL_A_AcquireBlock, 1, 64, BASE);
  tl_commit right = load(BASE, 3, 0);
  want(commit(&judge, 16, right).code == TL_BAD_ARGUMENT, "link 16");
  want(push(&judge, 0, holed).code == TL_BAD_ARGUMENT, "a mask of more lanes");
  want(tl_judge_try_commit(&judge, 0, &right).code == TL_BAD_ARGUMENT, "a judge of wide beats and commits tries none");
  want(tl_judge_push(&judge, 0, &narrow).code == TL_BAD_ARGUMENT, "it takes no other beat");
  want(tl_judge_push_line(&judge, (const uint8_t *)"00 I 0 0000000180000000\n", 24).code == TL_BAD_ARGUMENT, "it takes no line");
  want(commit(&judge, 0, right).code == TL_OK, "the judge is as it was");
  want(commit(&judge, 0, store(BASE, 3, ~(uint64_t)0)).code == TL_OK, "the largest value");
  tl_judge_free(&judge);
}

/* A source is numbered from its first appearance on, and a commit takes no number of a source. */
static void more_names_than_numbers(void) {
  tl_judge judge = with_trunk(8);
  tl_wide_beat get = {.channel = TL_CHANNEL_A, .opcode = TL_A_Get, .size = 3, .address = BASE + 64, .mask = 0xff};
  for (int i = 2; i < 256; i++) { /* 0x1ff of the Acquire has a number too */
    get.source = (uint16_t)(0x100 * i);
    want(push(&judge, 0, get).code == TL_OK, "a Get of another source");
    want(commit(&judge, 0, store(BASE, 0, (uint8_t)i)).code == TL_OK, "a store between");
  }
  get.source = 0x55;
  tl_answer answer = push(&judge, 0, get);
  want(answer.code == TL_TOO_MANY && answer.rule == TL_NO_RULE, "a source for which no number is left");
  want(commit(&judge, 0, load(BASE, 0, 255)).code == TL_OK, "the judge is as it was");
  want(push(&judge, 0, get).code == TL_TOO_MANY, "and again");
  get.source = 0x200;
  want(breaks(push(&judge, 0, get), TL_H1), "a source that has a number, and is pending");
  tl_judge_free(&judge);
}

static tl_answer made(const uint8_t *of_levels, size_t count, const uint8_t *of_stores, size_t complete_count, uint8_t width) {
  tl_judge judge = {0};
  tl_answer answer = tl_judge_new_wide_commits(&judge, of_levels, count, of_stores, complete_count, width, TL_STANDARD);
  want(judge.full == (answer.code == TL_OK), "a handle holds what was made");
  tl_judge_free(&judge);
  return answer;
}

static void judges_that_are_none(void) {
  uint8_t codes[17] = {0}, flags[17] = {0};
  want(made(codes, 0, flags, 0, 32).code == TL_BAD_ARGUMENT, "no links");
  want(made(codes, 17, flags, 17, 32).code == TL_BAD_ARGUMENT, "17 links");
  want(made(codes, 16, flags, 16, 64).code == TL_OK, "16 links");
  want(made(codes, 2, flags, 1, 32).code == TL_BAD_ARGUMENT, "a number too few");
  want(made(codes, 2, flags, 3, 32).code == TL_BAD_ARGUMENT, "a number too many");
  want(made(codes, 2, flags, 2, 24).code == TL_BAD_ARGUMENT, "a width of 24");
  want(made(codes, 2, flags, 2, 128).code == TL_BAD_ARGUMENT, "a width of 128");
  flags[1] = 2;
  want(made(codes, 2, flags, 2, 32).code == TL_BAD_ARGUMENT, "a number that is neither 0 nor 1");
  flags[1] = 0;
  codes[1] = 3;
  want(made(codes, 2, flags, 2, 32).code == TL_BAD_ARGUMENT, "level 3");
  tl_judge judge = opened(32);
  want(tl_judge_new_wide_commits(&judge, levels, 3, complete, 3, 32, 0).code == TL_BAD_ARGUMENT, "a handle that holds a judge");
  want(breaks(commit(&judge, 0, store(BASE, 0, 5)), TL_M5), "the judge is as it was");
  tl_judge_free(&judge);
  want(commit(&judge, 0, store(BASE, 0, 5)).code == TL_BAD_ARGUMENT, "an empty handle");
}

/* A judge of links that aren't wide has addresses of 32 bits. */
static void a_far_address_of_a_narrow_link(void) {
  tl_judge judge = {0};
  want(tl_judge_new_commits(&judge, levels, 3, complete, 3, 8, TL_NO_LIBERTIES).code == TL_OK, "a judge is made");
  for (int bit = 32; bit < 64; bit++)
    want(commit(&judge, 0, load((uint64_t)1 << bit, 0, 0)).code == TL_BAD_ARGUMENT, "an address of more than 32 bits");
  want(breaks(commit(&judge, 0, load(0xffffffff, 0, 0)), TL_M5), "the largest address");
  tl_judge_free(&judge);
}

#ifdef REFUSALS
#include "refusals.h"

/* Stores and loads of two blocks, each of which is done at the second try if memory was refused. Between both another commit and
   a beat are a bad argument if the first has begun; a judge that another one is taken by isn't asked further. */
static void commits_with_refusals(uint8_t width) {
  long refusals = 0, others = 0;
  for (long n = 0; n < 80; n++) {
    tl_judge judge = with_trunk(width);
    tl_commit trace[] = {begin(BASE, 2), store(BASE, 0, 5), store(BASE, 0, 6), store(BASE + 8, 3, 7), load(BASE, 3, 6), begin(BASE + 8, 3),
                         load(BASE, 2, 6), load(BASE + 8, 3, 7)};
    until_refusal = n;
    for (size_t i = 0; i < sizeof trace / sizeof trace[0]; i++) {
      refused = 0;
      tl_answer answer = commit(&judge, 0, trace[i]);
      if (answer.code == TL_NO_MEMORY) {
        refusals++;
        want(refused, "memory was refused");
        until_refusal = -1;
        /* link 2 has no cache, and nothing is acknowledged: each would close the judge if it were taken */
        if (commit(&judge, 2, trace[i]).code == TL_BAD_ARGUMENT) {
          others++;
          want(push(&judge, 0, (tl_wide_beat){.channel = TL_CHANNEL_E, .sink = 9}).code == TL_BAD_ARGUMENT, "nor is a beat taken");
          answer = commit(&judge, 0, trace[i]);
        } else {
          tl_judge_free(&judge);
          judge = with_trunk(width);
          i = (size_t)-1;
          continue;
        }
      }
      want(answer.code == TL_OK, "a commit is taken, at the second try if memory was refused");
    }
    until_refusal = -1;
    want(breaks(commit(&judge, 0, load(BASE, 0, 5)), TL_M6), "a load of what was overwritten");
    tl_judge_free(&judge);
  }
  want(refusals > 0 && others > 0, "commits take memory");
}

static void no_memory_for_a_judge(void) {
  long made_it = 0;
  for (long n = 0; n < 24; n++) {
    tl_judge judge = {0};
    until_refusal = n;
    refused = 0;
    tl_answer answer = tl_judge_new_wide_commits(&judge, levels, 3, complete, 3, 32, TL_NO_LIBERTIES);
    until_refusal = -1;
    want(refused ? answer.code == TL_NO_MEMORY && !judge.full : answer.code == TL_OK, "a judge");
    made_it += answer.code == TL_OK;
    tl_judge_free(&judge);
  }
  want(made_it > 0, "a judge is made");
}
#endif

int main(void) {
  for (int i = 0; i < 5; i++) {
    what_a_copy_allows(widths[i]);
    each_size(widths[i]);
    a_dirty_line(widths[i]);
    only_links_with_all_their_stores(widths[i]);
  }
  commits_that_are_none();
  more_names_than_numbers();
  judges_that_are_none();
  a_far_address_of_a_narrow_link();
#ifdef REFUSALS
  for (int i = 0; i < 5; i++) commits_with_refusals(widths[i]);
  no_memory_for_a_judge();
#endif
  printf("%d failures\n", failures);
  return failures != 0;
}
