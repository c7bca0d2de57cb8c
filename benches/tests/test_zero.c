/* Memory that was zero from C, for a judge of beats and commits of each width and for one of wide beats and commits: a byte that no
   message has shown is 0 in a Grant, in the answer to a Get, in a load and where a copy is given up, and what is refused. It is
   built with the address and undefined-behaviour sanitizers too. With REFUSALS the library's memory is this file's, and it is
   refused once, at each place in turn. */
#include "want.h"
#include <hefrudyl.h>
#include <stdio.h>
#include <stdlib.h>
#include <string.h>

static const uint8_t levels[2] = {TL_C, TL_UH};
static const uint8_t complete[2] = {1, 0};

/* What is said of memory at first: nothing, that it may have had any bytes, or that it was zero. */
enum { UNSAID, ANY, ZERO };

/* A judge of beats, or of wide ones, of this width. */
struct kind {
  int wide;
  uint8_t width;
};
static const struct kind kinds[8] = {{0, 4}, {0, 8}, {0, 16}, {1, 4}, {1, 8}, {1, 16}, {1, 32}, {1, 64}};

static tl_answer without_zero(tl_judge *judge, struct kind of, size_t links, size_t flags) {
  return (of.wide ? tl_judge_new_wide_commits : tl_judge_new_commits)(judge, levels, links, complete, flags, of.width, TL_NO_LIBERTIES);
}

static tl_answer with_zero(tl_judge *judge, struct kind of, size_t links, size_t flags, uint8_t zero) {
  return (of.wide ? tl_judge_new_wide_commits_zero : tl_judge_new_commits_zero)(judge, levels, links, complete, flags, zero, of.width,
                                                                               TL_NO_LIBERTIES);
}

static tl_answer open_of(tl_judge *judge, struct kind of, int memory) {
  return memory == UNSAID ? without_zero(judge, of, 2, 2) : with_zero(judge, of, 2, 2, memory == ZERO);
}

/* The fields of a beat, shown as a wide one or as another; what it has fits both. */
static tl_answer push(tl_judge *judge, struct kind of, uint8_t link, tl_wide_beat beat) {
  tl_beat narrow = {.channel = beat.channel, .opcode = beat.opcode, .param = beat.param, .size = beat.size, .mask = (uint16_t)beat.mask};
  memcpy(narrow.lanes, beat.lanes, sizeof narrow.lanes);
  return of.wide ? tl_judge_push_wide(judge, link, &beat) : tl_judge_push(judge, link, &narrow);
}

static tl_wide_beat asked(uint8_t channel, uint8_t opcode, uint8_t param, uint8_t width) {
  uint64_t lanes = width == 64 ? ~(uint64_t)0 : ((uint64_t)1 << width) - 1;
  return (tl_wide_beat){.channel = channel, .opcode = opcode, .param = param, .size = 6, .mask = lanes};
}

/* The first link holds block 0 as Trunk without its bytes, and its core has stored this byte. */
static void stored_unread(tl_judge *judge, struct kind of, uint8_t byte) {
  tl_commit store = {.kind = TL_COMMIT_STORE, .value = byte};
  want(push(judge, of, 0, asked(TL_CHANNEL_A, TL_A_AcquirePerm, 1, of.width)).code == TL_OK, "an AcquirePerm");
  want(push(judge, of, 0, (tl_wide_beat){.channel = TL_CHANNEL_D, .opcode = TL_D_Grant, .size = 6}).code == TL_OK, "its Grant");
  want(push(judge, of, 0, (tl_wide_beat){.channel = TL_CHANNEL_E}).code == TL_OK, "its GrantAck");
  want(tl_judge_commit(judge, 0, &store).code == TL_OK, "a store");
}

/* What is answered to the first beat of a GrantData that brings this byte. */
static tl_answer granted(tl_judge *judge, struct kind of, uint8_t byte) {
  tl_wide_beat grant = {.channel = TL_CHANNEL_D, .opcode = TL_D_GrantData, .param = 1, .size = 6, .lanes = {byte}};
  want(push(judge, of, 0, asked(TL_CHANNEL_A, TL_A_AcquireBlock, 0, of.width)).code == TL_OK, "an Acquire");
  return push(judge, of, 0, grant);
}

/* To the answer of a Get. */
static tl_answer answered(tl_judge *judge, struct kind of, uint8_t byte) {
  tl_wide_beat answer = {.channel = TL_CHANNEL_D, .opcode = TL_D_AccessAckData, .lanes = {byte}};
  want(push(judge, of, 1, (tl_wide_beat){.channel = TL_CHANNEL_A, .opcode = TL_A_Get, .mask = 1}).code == TL_OK, "a Get");
  return push(judge, of, 1, answer);
}

/* To a load of a byte that was stored before a ProbePerm: the copy now has what memory has. */
static tl_answer loaded(tl_judge *judge, struct kind of, uint8_t byte) {
  tl_commit load = {.kind = TL_COMMIT_LOAD, .value = byte};
  stored_unread(judge, of, byte);
  want(push(judge, of, 0, asked(TL_CHANNEL_B, TL_B_ProbePerm, 1, of.width)).code == TL_OK, "a ProbePerm toB");
  want(push(judge, of, 0, (tl_wide_beat){.channel = TL_CHANNEL_C, .opcode = TL_C_ProbeAck, .size = 6}).code == TL_OK, "its ProbeAck TtoB");
  return tl_judge_commit(judge, 0, &load);
}

/* To a Release without data after a store. */
static tl_answer given_up(tl_judge *judge, struct kind of, uint8_t byte) {
  stored_unread(judge, of, byte);
  return push(judge, of, 0, (tl_wide_beat){.channel = TL_CHANNEL_C, .opcode = TL_C_Release, .param = 1, .size = 6});
}

static const struct {
  tl_answer (*last)(tl_judge *, struct kind, uint8_t);
  uint8_t rule;
} traces[] = {{granted, TL_M2}, {answered, TL_M3}, {loaded, TL_M6}, {given_up, TL_M7}};

/* Another byte than 0 is wrong where memory was zero, and only there. */
static void a_byte_that_no_message_has_shown(struct kind of) {
  for (size_t i = 0; i < sizeof traces / sizeof traces[0]; i++)
    for (int memory = UNSAID; memory <= ZERO; memory++)
      for (uint8_t byte = 0; byte < 8; byte += 7) {
        tl_judge judge = {0};
        want(open_of(&judge, of, memory).code == TL_OK, "a judge is made");
        tl_answer answer = traces[i].last(&judge, of, byte);
        if (memory == ZERO && byte != 0)
          want(answer.code == TL_BROKEN && answer.rule == traces[i].rule, "another byte than 0");
        else
          want(answer.code == TL_OK && answer.rule == TL_NO_RULE, "a byte that memory may have had");
        tl_judge_free(&judge);
      }
}

static void want_refused(tl_answer answer, const tl_judge *judge, const char *what) {
  want(answer.code == TL_BAD_ARGUMENT && answer.rule == TL_NO_RULE && !judge->full, what);
}

static void judges_that_are_none(struct kind of) {
  struct kind other = {of.wide, (uint8_t)(of.width + 1)};
  tl_judge judge = {0};
  for (int zero = 2; zero < 256; zero++) want_refused(with_zero(&judge, of, 2, 2, (uint8_t)zero), &judge, "a number that is neither 0 nor 1");
  for (uint8_t zero = 0; zero < 2; zero++) {
    want_refused(with_zero(&judge, of, 0, 0, zero), &judge, "no links");
    want_refused(with_zero(&judge, of, 2, 1, zero), &judge, "a number too few");
    want_refused(with_zero(&judge, of, 1, 2, zero), &judge, "a number too many");
    want_refused(with_zero(&judge, other, 2, 2, zero), &judge, "another width");
  }
  for (int memory = UNSAID; memory <= ZERO; memory++) {
    want(open_of(&judge, of, memory).code == TL_OK, "a judge is made");
    for (int again = UNSAID; again <= ZERO; again++)
      want(open_of(&judge, of, again).code == TL_BAD_ARGUMENT && judge.full, "a handle that holds a judge");
    want(given_up(&judge, of, 7).code == (memory == ZERO ? TL_BROKEN : TL_OK), "the judge is as it was");
    tl_judge_free(&judge);
  }
}

#ifdef REFUSALS
#include "refusals.h"

static void no_memory_for_a_judge(struct kind of) {
  for (int memory = UNSAID; memory <= ZERO; memory++) {
    int made = 0;
    for (long n = 0; n < 24; n++) {
      tl_judge judge = {0};
      until_refusal = n;
      refused = 0;
      tl_answer answer = open_of(&judge, of, memory);
      until_refusal = -1;
      want(refused ? answer.code == TL_NO_MEMORY && !judge.full : answer.code == TL_OK, "a judge");
      made += answer.code == TL_OK;
      tl_judge_free(&judge);
    }
    want(made > 0, "a judge is made");
  }
}
#endif

int main(void) {
  for (size_t i = 0; i < sizeof kinds / sizeof kinds[0]; i++) {
    a_byte_that_no_message_has_shown(kinds[i]);
    judges_that_are_none(kinds[i]);
#ifdef REFUSALS
    no_memory_for_a_judge(kinds[i]);
#endif
  }
  printf("%d failures\n", failures);
  return failures != 0;
}
