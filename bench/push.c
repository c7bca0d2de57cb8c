/* Pushes beats to a monitor: KIND COUNT. "gets" are Gets of 8 bytes and their answers on a link at UL, "holds" a block more held
   after each three beats of a link at C. Fails if a beat breaks a rule. */
#include "hefrudyl.h"

#include <stdio.h>
#include <stdlib.h>
#include <string.h>

enum { CHANNEL_A = 0, CHANNEL_D = 3, CHANNEL_E = 4 };

static tl_beat request(uint8_t opcode, uint8_t param, uint8_t size, uint8_t source, uint32_t address) {
  return (tl_beat){.channel = CHANNEL_A, .opcode = opcode, .param = param, .size = size, .source = source,
                   .address = address, .mask = 0xff};
}

static tl_beat response(uint8_t opcode, uint8_t size, uint8_t source, uint8_t sink) {
  return (tl_beat){.channel = CHANNEL_D, .opcode = opcode, .size = size, .source = source, .sink = sink};
}

static void push(tl_monitor *monitor, tl_beat beat) {
  tl_answer answer = tl_monitor_push(monitor, 0, &beat);
  if (answer.code != TL_OK) {
    fprintf(stderr, "code %d, rule %d\n", answer.code, answer.rule);
    exit(1);
  }
}

static void push_get(tl_monitor *monitor, uint32_t i) {
  push(monitor, request(4, 0, 3, i % 256, 8 * i));
  push(monitor, response(1, 3, i % 256, 0));
}

static void push_hold(tl_monitor *monitor, uint32_t i) {
  push(monitor, request(7, 1, 6, i % 256, 64 * (i * 7919u % 67108859u)));
  push(monitor, response(4, 6, i % 256, i % 256));
  push(monitor, (tl_beat){.channel = CHANNEL_E, .sink = i % 256});
}

int main(int words, char **word) {
  if (words != 3) return 2;
  int holds = strcmp(word[1], "holds") == 0;
  uint32_t count = strtoul(word[2], NULL, 10);
  uint8_t level = holds ? TL_C : TL_UL;
  tl_monitor monitor = {0};
  if (tl_monitor_new(&monitor, &level, 1, 8, 1).code != TL_OK) return 1;
  for (uint32_t i = 0; i < count; i++) (holds ? push_hold : push_get)(&monitor, i);
  tl_monitor_free(&monitor);
  return 0;
}
