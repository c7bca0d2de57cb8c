/* Wide beats from C: bursts at each width, names that are long, limits of names, and every way to be refused. It is built with
   the address and undefined-behaviour sanitizers too. With REFUSALS the library's memory is this file's, and it is refused once,
   at each place in turn. */
#include "want.h"
#include <hefrudyl.h>
#include <stdio.h>
#include <stdlib.h>
#include <string.h>

static const uint8_t levels[2] = {TL_C, TL_C};
static const uint8_t widths[5] = {4, 8, 16, 32, 64};
static const uint64_t BASE = 0x180000000u;

static uint64_t all_lanes(uint8_t width) { return width == 64 ? ~(uint64_t)0 : ((uint64_t)1 << width) - 1; }

static tl_wide_beat acquire(uint8_t width) {
  tl_wide_beat beat = {.channel = TL_CHANNEL_A, .opcode = TL_A_AcquireBlock, .param = 1, .size = 6, .source = 0x1ff, .address = BASE + 0x80};
  beat.mask = all_lanes(width);
  return beat;
}

static const tl_wide_beat grant = {.channel = TL_CHANNEL_D, .opcode = TL_D_GrantData, .size = 6, .source = 0x1ff, .sink = 0x3ff};
static const tl_wide_beat acknowledge = {.channel = TL_CHANNEL_E, .sink = 0x3ff};

/* A Put of a whole beat, and its answer. */
static tl_wide_beat put(uint8_t width) {
  tl_wide_beat beat = {.channel = TL_CHANNEL_A, .opcode = TL_A_PutFullData, .size = 0, .source = 7, .address = BASE};
  for (uint8_t bytes = width; bytes > 1; bytes /= 2) beat.size++;
  beat.mask = all_lanes(width);
  memset(beat.lanes, 0x5a, width);
  return beat;
}

static tl_monitor opened(uint8_t width) {
  tl_monitor monitor = {0};
  want(tl_monitor_new_wide(&monitor, levels, 2, width, TL_NO_LIBERTIES).code == TL_OK, "a monitor is made");
  return monitor;
}

static tl_judge opened_judge(uint8_t width) {
  tl_judge judge = {0};
  want(tl_judge_new_wide(&judge, levels, 2, width, TL_NO_LIBERTIES).code == TL_OK, "a judge is made");
  return judge;
}

static tl_answer push(tl_monitor *monitor, tl_wide_beat beat) { return tl_monitor_push_wide(monitor, 0, &beat); }
static tl_answer judged(tl_judge *judge, uint8_t link, tl_wide_beat beat) { return tl_judge_push_wide(judge, link, &beat); }

static void a_burst_at_each_width(void) {
  for (int i = 0; i < 5; i++) {
    uint8_t width = widths[i];
    tl_monitor monitor = opened(width);
    want(push(&monitor, acquire(width)).code == TL_OK, "an Acquire");
    for (int k = 0; k < 64 / width; k++) {
      tl_wide_beat data = grant;
      data.lanes[width - 1] = 0xa5;
      want(push(&monitor, data).code == TL_OK, "a beat of GrantData");
    }
    /* a burst of another number of beats would still be unfinished, and this GrantAck H8 */
    want(push(&monitor, acknowledge).code == TL_OK, "the GrantAck");
    tl_answer again = push(&monitor, acknowledge);
    want(again.code == TL_BROKEN && again.rule == TL_H8, "a second GrantAck is H8");
    want(push(&monitor, acquire(width)).code == TL_CLOSED, "a closed monitor stays closed");
    tl_monitor_free(&monitor);
    want(monitor.full == 0, "a handle that was freed holds nothing");
  }
}

/* A lane that only the last sixteen bytes lack is L5 of their part, as it is of a whole beat of 16 bytes. */
static void the_last_part_is_judged(void) {
  for (int i = 0; i < 5; i++) {
    uint8_t width = widths[i];
    tl_monitor monitor = opened(width);
    tl_wide_beat holed = put(width);
    want(push(&monitor, holed).code == TL_OK, "a Put");
    holed.source = 8;
    holed.mask ^= (uint64_t)1 << (width - 1);
    tl_answer answer = push(&monitor, holed);
    want(answer.code == TL_BROKEN && answer.rule == TL_L5, "a lane that a PutFullData lacks is L5");
    tl_monitor_free(&monitor);
  }
}

/* Two readers of a block, of which one is granted toT: no rule of its link, but M1. And bytes that a Put has written: M3. */
static void a_judge_of_all_links(void) {
  for (int i = 0; i < 5; i++) {
    uint8_t width = widths[i];
    tl_judge judge = opened_judge(width);
    want(judged(&judge, 0, acquire(width)).code == TL_OK, "an Acquire");
    for (int k = 0; k < 64 / width; k++) want(judged(&judge, 0, grant).code == TL_OK, "its GrantData");
    want(judged(&judge, 0, acknowledge).code == TL_OK, "its GrantAck");
    want(judged(&judge, 1, acquire(width)).code == TL_OK, "the same Acquire on another link");
    tl_answer answer = judged(&judge, 1, grant);
    want(answer.code == TL_BROKEN && answer.rule == TL_M1, "a block that another link holds is M1");
    tl_judge_free(&judge);

    judge = opened_judge(width);
    tl_wide_beat answers = {.channel = TL_CHANNEL_D, .opcode = TL_D_AccessAck, .size = put(width).size, .source = 7};
    want(judged(&judge, 0, put(width)).code == TL_OK && judged(&judge, 0, answers).code == TL_OK, "a Put and its answer");
    tl_wide_beat get = put(width);
    get.opcode = TL_A_Get;
    memset(get.lanes, 0, sizeof get.lanes);
    answers.opcode = TL_D_AccessAckData;
    memset(answers.lanes, 0x5a, width);
    want(judged(&judge, 0, get).code == TL_OK && judged(&judge, 0, answers).code == TL_OK, "a Get of its bytes");
    want(judged(&judge, 0, get).code == TL_OK, "another Get");
    answers.lanes[width - 1] = 0x5b;
    answer = judged(&judge, 0, answers);
    want(answer.code == TL_BROKEN && answer.rule == TL_M3, "another byte in the last lane is M3");
    tl_judge_free(&judge);
  }
}

/* A GrantAck may come with the first beat of its GrantData, and then gives its link the block. */
static void an_early_grant_ack(void) {
  for (int early = 0; early < 2; early++)
    for (int i = 0; i < 4; i++) {
      uint8_t width = widths[i];
      tl_judge judge = {0};
      want(tl_judge_new_wide(&judge, levels, 2, width, early ? TL_STANDARD : TL_STANDARD - TL_EARLY).code == TL_OK, "a judge is made");
      want(judged(&judge, 0, acquire(width)).code == TL_OK && judged(&judge, 0, grant).code == TL_OK, "an Acquire and its Grant");
      tl_answer answer = judged(&judge, 0, acknowledge);
      want(early ? answer.code == TL_OK : answer.rule == TL_H8, "an early GrantAck is H8 without the liberty");
      if (early) {
        tl_wide_beat second = grant;
        second.sink = 1;
        want(judged(&judge, 1, acquire(width)).code == TL_OK, "the same Acquire on another link");
        answer = judged(&judge, 1, second);
        want(answer.code == TL_BROKEN && answer.rule == TL_M1, "a block that another link holds is M1");
      }
      tl_judge_free(&judge);
    }
}

static void a_refused_beat_changes_nothing(void) {
  tl_monitor monitor = opened(32);
  tl_wide_beat bad[15];
  for (int i = 0; i < 8; i++) bad[i] = acquire(32);
  for (int i = 8; i < 12; i++) bad[i] = grant;
  for (int i = 12; i < 15; i++) bad[i] = acknowledge;
  bad[0].channel = 5;
  bad[1].opcode = 8;
  bad[2].param = 8;
  bad[3].size = 16;
  bad[4].mask = (uint64_t)1 << 32;
  bad[5].lanes[0] = 1; /* an Acquire carries no data */
  bad[6].corrupt = 2;
  bad[7].sink = 1;
  bad[8].param = 4;
  bad[9].lanes[32] = 1; /* a beat has 32 bytes */
  bad[10].denied = 2;
  bad[11].address = BASE;
  bad[12].opcode = 1;
  bad[13].address = 1;
  bad[14].source = 1;
  for (size_t i = 0; i < sizeof bad / sizeof bad[0]; i++) {
    tl_answer answer = push(&monitor, bad[i]);
    want(answer.code == TL_BAD_ARGUMENT && answer.rule == TL_NO_RULE, "a field out of range");
  }
  tl_wide_beat right = acquire(32);
  want(tl_monitor_push_wide(&monitor, 16, &right).code == TL_BAD_ARGUMENT, "link 16");
  want(push(&monitor, right).code == TL_OK, "the monitor is as it was");
  tl_monitor_free(&monitor);
}

static void handles(void) {
  uint8_t codes[17] = {0};
  tl_monitor monitor = {0};
  tl_judge judge = {0};
  tl_beat narrow = {.channel = TL_CHANNEL_E};
  want(push(&monitor, acknowledge).code == TL_BAD_ARGUMENT, "an empty handle judges nothing");
  want(tl_monitor_new_wide(&monitor, codes, 0, 32, 0).code == TL_BAD_ARGUMENT, "no links");
  want(tl_monitor_new_wide(&monitor, codes, 17, 32, 0).code == TL_BAD_ARGUMENT, "17 links");
  want(tl_monitor_new_wide(&monitor, codes, 1, 24, 0).code == TL_BAD_ARGUMENT, "a width of 24");
  want(tl_monitor_new_wide(&monitor, codes, 1, 128, 0).code == TL_BAD_ARGUMENT, "a width of 128");
  codes[1] = 3;
  want(tl_monitor_new_wide(&monitor, codes, 2, 32, 0).code == TL_BAD_ARGUMENT, "level 3");
  want(tl_judge_new_wide(&judge, levels, 2, 24, TL_EARLY).code == TL_BAD_ARGUMENT, "a judge of a width of 24");
  want(tl_monitor_new_wide(&monitor, levels, 2, 32, TL_EARLY).code == TL_OK, "a monitor of early links");
  want(tl_monitor_new_wide(&monitor, levels, 2, 32, 0).code == TL_BAD_ARGUMENT, "a handle that holds a monitor");
  want(tl_monitor_push(&monitor, 0, &narrow).code == TL_BAD_ARGUMENT, "a monitor of wide beats takes no other beat");
  tl_monitor_free(&monitor);
  tl_monitor_new(&monitor, levels, 2, 16, 1);
  want(push(&monitor, acknowledge).code == TL_BAD_ARGUMENT, "a monitor of other beats takes no wide one");
  tl_monitor_free(&monitor);
}

/* A source of a link and a sink of the manager are numbered from their first appearance on, 0 first: so there may be 255 others. */
static void more_names_than_numbers(void) {
  tl_monitor monitor = opened(8);
  tl_wide_beat get = {.channel = TL_CHANNEL_A, .opcode = TL_A_Get, .size = 3, .address = BASE, .mask = 0xff};
  for (int i = 1; i < 256; i++) {
    get.source = (uint16_t)(0x100 * i);
    want(push(&monitor, get).code == TL_OK, "a Get of another source");
  }
  tl_wide_beat one_more = get;
  one_more.source = 0x55;
  tl_answer answer = push(&monitor, one_more);
  want(answer.code == TL_TOO_MANY && answer.rule == TL_NO_RULE, "a source for which no number is left");
  tl_wide_beat data = {.channel = TL_CHANNEL_D, .opcode = TL_D_AccessAckData, .size = 3, .source = 0x100};
  want(push(&monitor, data).code == TL_OK, "the answer to the first: the monitor is as it was");
  want(push(&monitor, one_more).code == TL_TOO_MANY, "and again");
  get.source = 0x100;
  want(push(&monitor, get).code == TL_OK, "a source that has a number");
  want(push(&monitor, get).rule == TL_H1, "which is pending now");
  tl_monitor_free(&monitor);
  uint8_t text[128];
  want(tl_error_text(TL_TOO_MANY, text, sizeof text) > 20, "the code has a text");
}

#ifdef REFUSALS
#include "refusals.h"

static void a_trace_with_refusals(uint8_t width) {
  for (long n = 0; n < 40; n++) {
    tl_judge judge = opened_judge(width);
    long refusals = 0;
    /* an Acquire, its GrantData and GrantAck, and a second GrantAck, which is H8 whatever memory was refused */
    tl_wide_beat trace[80] = {acquire(width)};
    int count = 1;
    for (int k = 0; k < 64 / width; k++) trace[count++] = grant;
    trace[count++] = acknowledge;
    until_refusal = n;
    for (int i = 0; i < count; i++) {
      refused = 0;
      tl_answer answer = judged(&judge, 0, trace[i]);
      if (answer.code == TL_NO_MEMORY) {
        refusals++;
        want(refused, "memory was refused");
        until_refusal = -1;
        answer = judged(&judge, 0, trace[i]);
      }
      want(answer.code == TL_OK, "a beat is taken, at the second try if memory was refused");
    }
    until_refusal = -1;
    want(judged(&judge, 0, acknowledge).rule == TL_H8, "a second GrantAck");
    tl_judge_free(&judge);
    if (refusals == 0 && n > 8) break;
  }
}

/* A part of a Put is taken, and there is no memory for another: the same beat goes on, and another is a bad argument. */
static void another_beat_after_a_refusal(void) {
  int others = 0;
  for (long n = 0; n < 40; n++) {
    tl_judge judge = opened_judge(64);
    until_refusal = n;
    tl_answer answer = judged(&judge, 0, put(64));
    until_refusal = -1;
    if (answer.code == TL_NO_MEMORY) {
      tl_wide_beat other = put(64);
      other.lanes[63] = 1;
      answer = judged(&judge, 0, other);
      want(answer.code == TL_OK || answer.code == TL_BAD_ARGUMENT, "another beat");
      if (answer.code == TL_BAD_ARGUMENT) {
        others++;
        want(judged(&judge, 0, put(64)).code == TL_OK, "the beat that was begun");
      }
    } else
      want(answer.code == TL_OK, "the beat is taken");
    tl_judge_free(&judge);
  }
  want(others > 0, "a beat was begun");
}

static void no_memory_for_a_handle(void) {
  for (long n = 0; n < 8; n++) {
    tl_monitor monitor = {0};
    tl_judge judge = {0};
    until_refusal = n;
    refused = 0;
    tl_answer answer = tl_monitor_new_wide(&monitor, levels, 2, 32, 0);
    until_refusal = -1;
    want(refused ? answer.code == TL_NO_MEMORY && !monitor.full : answer.code == TL_OK, "a monitor");
    until_refusal = n;
    refused = 0;
    answer = tl_judge_new_wide(&judge, levels, 2, 32, 0);
    until_refusal = -1;
    want(refused ? answer.code == TL_NO_MEMORY && !judge.full : answer.code == TL_OK, "a judge");
    tl_monitor_free(&monitor);
    tl_judge_free(&judge);
  }
}
#endif

int main(void) {
  a_burst_at_each_width();
  the_last_part_is_judged();
  a_judge_of_all_links();
  an_early_grant_ack();
  a_refused_beat_changes_nothing();
  handles();
  more_names_than_numbers();
#ifdef REFUSALS
  for (int i = 0; i < 5; i++) a_trace_with_refusals(widths[i]);
  another_beat_after_a_refusal();
  no_memory_for_a_handle();
#endif
  printf("%d failures\n", failures);
  return failures != 0;
}
