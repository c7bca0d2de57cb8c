/* The judge of all links from C: two writers of one block, stale bytes, an access beside a writer, early answers, and
   what is refused. It is built with the address and undefined-behaviour sanitizers too. */
#include "want.h"
#include <hefrudyl.h>
#include <stdio.h>

static const uint8_t levels[2] = {TL_C, TL_C};
static const tl_beat grant = {.channel = TL_CHANNEL_D, .opcode = TL_D_Grant, .param = 0, .size = 6};
static const tl_beat answer = {.channel = TL_CHANNEL_D, .opcode = TL_D_AccessAckData, .size = 2};
static const tl_beat put = {
    .lanes = {5}, .channel = TL_CHANNEL_A, .opcode = TL_A_PutFullData, .size = 2, .mask = 0xf};
static const tl_beat put_ack = {.channel = TL_CHANNEL_D, .opcode = TL_D_AccessAck, .size = 2};
static const tl_beat grant_data = {.channel = TL_CHANNEL_D, .opcode = TL_D_GrantData, .param = 1, .size = 6};

static tl_beat asked(uint8_t opcode, uint8_t size, uint8_t width) {
  tl_beat beat = {.channel = TL_CHANNEL_A, .opcode = opcode, .size = size, .mask = (uint16_t)((1u << width) - 1)};
  if (opcode == TL_A_AcquirePerm) beat.param = 1;
  if (opcode == TL_A_Get) beat.mask = 0xf;
  return beat;
}

static tl_answer push(tl_judge *judge, uint8_t link, tl_beat beat) { return tl_judge_push(judge, link, &beat); }

/* A judge of two links that have these liberties, the first of which holds block 0 as Trunk. */
static tl_judge beside_a_writer_under(uint8_t width, uint8_t liberties) {
  tl_judge judge = {0};
  want(tl_judge_new_under(&judge, levels, 2, width, liberties).code == TL_OK, "a judge is made");
  want(push(&judge, 0, asked(TL_A_AcquirePerm, 6, width)).code == TL_OK, "an Acquire");
  want(push(&judge, 0, grant).code == TL_OK, "its Grant");
  return judge;
}

static tl_judge beside_a_writer(uint8_t width) { return beside_a_writer_under(width, TL_NO_LIBERTIES); }

static void two_writers(uint8_t width) {
  tl_judge judge = beside_a_writer(width);
  tl_beat second = grant;
  second.sink = 1;
  want(push(&judge, 1, asked(TL_A_AcquirePerm, 6, width)).code == TL_OK, "a second Acquire");
  tl_answer told = push(&judge, 1, second);
  want(told.code == TL_BROKEN && told.rule == TL_M1, "a Grant beside a writer is M1");
  want(push(&judge, 1, second).code == TL_CLOSED, "a closed judge stays closed");
  tl_judge_free(&judge);
  want(judge.full == 0, "a handle that was freed holds nothing");
}

/* A denied Grant gives nothing, and may come beside a writer. */
static void a_denied_grant(uint8_t width) {
  tl_judge judge = beside_a_writer_under(width, TL_DENIED);
  tl_beat denied = grant;
  denied.sink = 1;
  denied.denied = 1;
  want(push(&judge, 1, asked(TL_A_AcquirePerm, 6, width)).code == TL_OK, "a second Acquire");
  want(push(&judge, 1, denied).code == TL_OK, "a denied Grant");
  tl_judge_free(&judge);
}

/* A judge of links that have these liberties, of which the first has the first beat of a GrantData toT, and acknowledges it. */
static tl_judge behind_a_grant_ack(uint8_t width, uint8_t liberties, tl_answer *told) {
  tl_judge judge = {0};
  tl_beat acquire = asked(TL_A_AcquireBlock, 6, width), begun = grant_data;
  acquire.param = 1;
  begun.param = 0;
  want(tl_judge_new_under(&judge, levels, 2, width, liberties).code == TL_OK, "a judge is made");
  want(push(&judge, 0, acquire).code == TL_OK, "an Acquire");
  want(push(&judge, 0, begun).code == TL_OK, "the first beat of its GrantData");
  *told = push(&judge, 0, (tl_beat){.channel = TL_CHANNEL_E});
  return judge;
}

/* An early GrantAck gives its link the block. It is another's once a Probe was answered, while the GrantData goes on. */
static void an_early_grant_ack(uint8_t width) {
  tl_beat second = grant, probe = asked(TL_B_ProbePerm, 6, width), report = {.channel = TL_CHANNEL_C, .opcode = TL_C_ProbeAck};
  tl_answer told;
  second.sink = 1;
  probe.channel = TL_CHANNEL_B;
  probe.param = 2;
  report.param = 1;
  report.size = 6;
  tl_judge judge = behind_a_grant_ack(width, TL_STANDARD - TL_EARLY, &told);
  want(told.code == TL_BROKEN && told.rule == TL_H8, "an early GrantAck is H8 without the liberty");
  tl_judge_free(&judge);
  for (int probed = 0; probed < 2; probed++) {
    judge = behind_a_grant_ack(width, TL_STANDARD, &told);
    want(told.code == TL_OK, "an early GrantAck");
    want(push(&judge, 1, asked(TL_A_AcquirePerm, 6, width)).code == TL_OK, "a second Acquire");
    if (probed) want(push(&judge, 0, probe).code == TL_OK && push(&judge, 0, report).code == TL_OK, "a Probe and its answer");
    told = push(&judge, 1, second);
    want(probed ? told.code == TL_OK : told.rule == TL_M1, "a Grant beside an early GrantAck is M1, and none behind a Probe");
    tl_judge_free(&judge);
  }
}

static void an_access_beside_a_writer(uint8_t width) {
  tl_judge judge = beside_a_writer(width);
  want(push(&judge, 1, asked(TL_A_Get, 2, width)).code == TL_OK, "a Get");
  tl_answer told = push(&judge, 1, answer);
  want(told.code == TL_BROKEN && told.rule == TL_M4, "its answer beside a writer is M4");
  tl_judge_free(&judge);
}

/* A judge of two links, of which the first wrote 5 at address 0. */
static tl_judge behind_a_put(uint8_t width) {
  tl_judge judge = {0};
  want(tl_judge_new(&judge, levels, 2, width, 1).code == TL_OK, "a judge is made");
  want(push(&judge, 0, put).code == TL_OK, "a Put");
  want(push(&judge, 0, put_ack).code == TL_OK, "its answer");
  return judge;
}

static void stale_bytes(uint8_t width) {
  tl_judge judge = behind_a_put(width);
  want(push(&judge, 1, asked(TL_A_AcquireBlock, 6, width)).code == TL_OK, "an Acquire");
  tl_answer told = push(&judge, 1, grant_data);
  want(told.code == TL_BROKEN && told.rule == TL_M2, "a Grant of what was there before is M2");
  tl_judge_free(&judge);
  judge = behind_a_put(width);
  want(push(&judge, 1, asked(TL_A_Get, 2, width)).code == TL_OK, "a Get");
  tl_beat right = answer;
  right.lanes[0] = 5;
  want(push(&judge, 1, right).code == TL_OK, "an answer with what was written");
  want(push(&judge, 1, asked(TL_A_Get, 2, width)).code == TL_OK, "a second Get");
  told = push(&judge, 1, answer);
  want(told.code == TL_BROKEN && told.rule == TL_M3, "an answer with what was there before is M3");
  tl_judge_free(&judge);
}

static void a_rule_of_the_link_comes_first(void) {
  tl_judge judge = beside_a_writer(8);
  tl_answer told = push(&judge, 1, grant);
  want(told.code == TL_BROKEN && told.rule == TL_H2, "a Grant that answers nothing is H2");
  tl_judge_free(&judge);
}

static void a_fault_that_is_not_the_end(void) {
  tl_judge judge = beside_a_writer(8);
  tl_beat get = asked(TL_A_Get, 2, 8);
  want(tl_judge_try_push(&judge, 1, &get).code == TL_OK, "a Get");
  for (int i = 0; i < 2; i++) {
    tl_answer told = tl_judge_try_push(&judge, 1, &answer);
    want(told.code == TL_BROKEN && told.rule == TL_M4, "an answer beside a writer is M4, twice");
  }
  want(tl_judge_try_push(&judge, 1, &get).rule == TL_H1, "the Get is pending still");
  want(push(&judge, 1, answer).rule == TL_M4, "the same");
  want(tl_judge_try_push(&judge, 1, &get).code == TL_CLOSED, "a closed judge stays closed");
  tl_judge_free(&judge);
}

static void what_is_refused(void) {
  uint8_t many[17] = {0};
  tl_judge judge = {0};
  want(push(&judge, 0, grant).code == TL_BAD_ARGUMENT, "an empty handle judges nothing");
  tl_judge_free(&judge);
  want(tl_judge_new(&judge, many, 0, 8, 1).code == TL_BAD_ARGUMENT, "no links");
  want(tl_judge_new(&judge, many, 17, 8, 1).code == TL_BAD_ARGUMENT, "17 links");
  want(tl_judge_new(&judge, levels, 2, 9, 1).code == TL_BAD_ARGUMENT, "a width of 9");
  want(tl_judge_new_under(&judge, levels, 2, 9, TL_STANDARD).code == TL_BAD_ARGUMENT, "a width of 9 under liberties");
  want(judge.full == 0, "nothing was made");
  want(tl_judge_new(&judge, many, 16, 16, 2).code == TL_OK, "16 links");
  want(tl_judge_new(&judge, levels, 2, 8, 1).code == TL_BAD_ARGUMENT, "a handle that holds a judge");
  want(push(&judge, 16, grant).code == TL_BAD_ARGUMENT, "link 16");
  tl_beat bad = asked(TL_A_Get, 2, 16);
  bad.param = 8;
  want(push(&judge, 0, bad).code == TL_BAD_ARGUMENT, "a param out of range");
  want(push(&judge, 0, asked(TL_A_Get, 2, 16)).code == TL_OK, "the judge is as it was");
  tl_judge_free(&judge);
  tl_judge_free(&judge);
}

int main(void) {
  static const uint8_t widths[3] = {4, 8, 16};
  for (int i = 0; i < 3; i++) {
    two_writers(widths[i]);
    stale_bytes(widths[i]);
    an_access_beside_a_writer(widths[i]);
    a_denied_grant(widths[i]);
    an_early_grant_ack(widths[i]);
  }
  a_rule_of_the_link_comes_first();
  a_fault_that_is_not_the_end();
  what_is_refused();
  printf("%d failures\n", failures);
  return failures != 0;
}
