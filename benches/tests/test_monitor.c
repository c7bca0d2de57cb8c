/* The library from C: a trace of one link of level C, every way to be refused, and a beat of each
   field out of range. It is built with the address and undefined-behaviour sanitizers too. */
#include "want.h"
#include <hefrudyl.h>
#include <stdio.h>
#include <string.h>

static const tl_beat acquire = {.channel = TL_CHANNEL_A, .opcode = TL_A_AcquireBlock, .param = 1, .size = 6, .source = 2, .address = 0x80, .mask = 0xff};
static const tl_beat grant = {.channel = TL_CHANNEL_D, .opcode = TL_D_GrantData, .param = 0, .size = 6, .source = 2, .sink = 3};
static const tl_beat acknowledge = {.channel = TL_CHANNEL_E, .sink = 3};

static tl_monitor opened(const uint8_t *levels, size_t links, uint8_t width) {
  tl_monitor monitor = {0};
  want(tl_monitor_new(&monitor, levels, links, width, 1).code == TL_OK, "a monitor is made");
  return monitor;
}

static tl_answer push(tl_monitor *monitor, uint8_t link, tl_beat beat) { return tl_monitor_push(monitor, link, &beat); }

static void a_burst_at_each_width(void) {
  static const uint8_t levels[1] = {TL_C};
  static const uint8_t widths[3] = {4, 8, 16};
  for (int i = 0; i < 3; i++) {
    uint8_t width = widths[i];
    tl_monitor monitor = opened(levels, 1, width);
    tl_beat first = acquire;
    first.mask = (uint16_t)((1u << width) - 1);
    want(push(&monitor, 0, first).code == TL_OK, "an Acquire");
    for (int k = 0; k < 64 / width; k++) {
      tl_beat data = grant;
      data.lanes[width - 1] = 0xa5;
      want(push(&monitor, 0, data).code == TL_OK, "a beat of GrantData");
    }
    /* a burst of another number of beats would still be unfinished, and this GrantAck H8 */
    want(push(&monitor, 0, acknowledge).code == TL_OK, "the GrantAck");
    tl_answer again = push(&monitor, 0, acknowledge);
    want(again.code == TL_BROKEN && again.rule == TL_H8, "a second GrantAck is H8");
    want(push(&monitor, 0, first).code == TL_CLOSED, "a closed monitor stays closed");
    tl_monitor_free(&monitor);
    want(monitor.full == 0, "a handle that was freed holds nothing");
  }
}

static void a_refused_beat_changes_nothing(void) {
  static const uint8_t levels[1] = {TL_C};
  tl_monitor monitor = opened(levels, 1, 8);
  tl_beat bad[] = {acquire, acquire, acquire, acquire, acquire, acquire, acquire, grant, grant, grant, grant, acknowledge, acknowledge};
  bad[0].channel = 5;
  bad[1].opcode = 8;
  bad[2].param = 8;
  bad[3].size = 16;
  bad[4].mask = 0x100;
  bad[5].lanes[0] = 1; /* an Acquire carries no data */
  bad[6].corrupt = 2;
  bad[7].param = 4;
  bad[8].lanes[8] = 1; /* a beat has 8 bytes */
  bad[9].denied = 2;
  bad[10].opcode = 7;
  bad[11].opcode = 1;
  bad[12].address = 1;
  for (size_t i = 0; i < sizeof bad / sizeof bad[0]; i++) {
    tl_answer answer = push(&monitor, 0, bad[i]);
    want(answer.code == TL_BAD_ARGUMENT && answer.rule == TL_NO_RULE, "a field out of range");
  }
  want(push(&monitor, 16, acquire).code == TL_BAD_ARGUMENT, "link 16");
  want(push(&monitor, 0, acquire).code == TL_OK, "the monitor is as it was");
  tl_answer other = push(&monitor, 1, acquire);
  want(other.code == TL_BROKEN && other.rule == TL_L1, "a link without a level is L1");
  tl_monitor_free(&monitor);
}

static void handles(void) {
  uint8_t levels[17] = {0};
  tl_monitor monitor = {0};
  want(push(&monitor, 0, acquire).code == TL_BAD_ARGUMENT, "an empty handle judges nothing");
  tl_monitor_free(&monitor);
  want(tl_monitor_new(&monitor, levels, 0, 8, 1).code == TL_BAD_ARGUMENT, "no links");
  want(tl_monitor_new(&monitor, levels, 17, 8, 1).code == TL_BAD_ARGUMENT, "17 links");
  want(tl_monitor_new(&monitor, levels, 1, 32, 1).code == TL_BAD_ARGUMENT, "a width of 32");
  want(tl_monitor_new_under(&monitor, levels, 0, 8, TL_STANDARD).code == TL_BAD_ARGUMENT, "no links, liberties");
  want(tl_monitor_new_under(&monitor, levels, 1, 32, TL_STANDARD).code == TL_BAD_ARGUMENT, "a width of 32, liberties");
  want(tl_monitor_new(&monitor, levels, 1, 8, 3).code == TL_BAD_ARGUMENT, "profile 3");
  levels[1] = 3;
  want(tl_monitor_new(&monitor, levels, 2, 8, 1).code == TL_BAD_ARGUMENT, "level 3");
  levels[1] = TL_C;
  want(monitor.full == 0, "nothing was made");
  want(tl_monitor_new(&monitor, levels, 16, 16, 2).code == TL_OK, "16 links");
  want(tl_monitor_new(&monitor, levels, 1, 8, 1).code == TL_BAD_ARGUMENT, "a handle that holds a monitor");
  tl_beat wide = acquire;
  wide.mask = 0xffff;
  want(push(&monitor, 1, wide).code == TL_OK, "it is left as it was");
  tl_monitor_free(&monitor);
  tl_monitor_free(&monitor);
}

static void under_the_second_profile(void) {
  static const uint8_t levels[1] = {TL_C};
  for (uint8_t profile = 1; profile <= 2; profile++) {
    tl_monitor monitor = {0};
    tl_monitor_new(&monitor, levels, 1, 8, profile);
    tl_beat reads = acquire;
    reads.param = 0; /* NtoB */
    want(push(&monitor, 0, reads).code == TL_OK, "an Acquire to read");
    tl_answer answer = push(&monitor, 0, grant); /* GrantData toT */
    want(profile == 1 ? answer.rule == TL_H6 : answer.code == TL_OK, "toT for a lone reader");
    tl_monitor_free(&monitor);
  }
}

static void a_fault_that_is_not_the_end(void) {
  static const uint8_t levels[1] = {TL_C};
  tl_monitor monitor = {0};
  want(tl_monitor_try_push(&monitor, 0, &acquire).code == TL_BAD_ARGUMENT, "an empty handle judges nothing");
  tl_monitor_new(&monitor, levels, 1, 8, 1);
  for (int i = 0; i < 2; i++) {
    tl_answer answer = tl_monitor_try_push(&monitor, 0, &grant);
    want(answer.code == TL_BROKEN && answer.rule == TL_H2, "a Grant that answers nothing, twice");
  }
  want(tl_monitor_try_push(&monitor, 0, &acquire).code == TL_OK, "an Acquire behind it");
  want(tl_monitor_try_push(&monitor, 16, &acquire).code == TL_BAD_ARGUMENT, "link 16");
  want(tl_monitor_try_push(&monitor, 0, &grant).code == TL_OK, "its Grant");
  want(push(&monitor, 0, acquire).rule == TL_H1, "the source is pending");
  want(tl_monitor_try_push(&monitor, 0, &grant).code == TL_CLOSED, "a closed monitor stays closed");
  tl_monitor_free(&monitor);
}

static void names(void) {
  uint8_t name[4] = "???";
  want(tl_rule_name(TL_H12, name, 3) == 3 && memcmp(name, "H12", 3) == 0, "H12");
  want(tl_rule_name(TL_NO_RULE, name, 3) == 0, "no rule has no name");
  want(tl_rule_name(TL_M2, name, 3) == 2 && memcmp(name, "M2", 2) == 0, "M2");
  want(tl_rule_name(TL_M4, name, 3) == 2 && memcmp(name, "M4", 2) == 0, "M4");
  want(tl_rule_name(TL_M7, name, 3) == 2 && memcmp(name, "M7", 2) == 0, "M7");
  want(tl_rule_name(TL_M7 + 1, name, 3) == 0, "there is no rule behind M7");
  name[1] = '?';
  want(tl_rule_name(TL_L1, name, 1) == 1 && name[0] == 'L' && name[1] == '?', "no more than there is room for");
}

int main(void) {
  a_burst_at_each_width();
  a_refused_beat_changes_nothing();
  handles();
  under_the_second_profile();
  a_fault_that_is_not_the_end();
  names();
  printf("%d failures\n", failures);
  return failures != 0;
}
