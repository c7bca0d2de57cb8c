/* A client from C at each width: a block is acquired, written and probed away, and the proved monitor
   judges each beat; then every way to be refused. It is built with the sanitizers too. */
#include "want.h"
#include <hefrudyl.h>
#include <stdio.h>
#include <string.h>

static tl_client opened(uint8_t level, uint8_t width) {
  tl_client client = {0};
  want(tl_client_new(&client, level, 4, 2, width, 1).code == TL_OK, "a client is made");
  return client;
}

/* Sends what waits on a channel, each beat judged, and tells how many there were. */
static int sent(tl_client *client, tl_monitor *monitor, uint8_t channel, tl_beat *last) {
  int count = 0;
  tl_beat shown;
  while (tl_client_next(client, channel, &shown).code == TL_OK) {
    want(tl_client_pop(client, channel, last).code == TL_OK, "what is shown can be popped");
    want(memcmp(&shown, last, sizeof shown) == 0 && shown.channel == channel, "what is popped is what was shown");
    want(tl_monitor_push(monitor, 0, last).code == TL_OK, "what a client sends breaks no rule");
    count++;
  }
  want(tl_client_pop(client, channel, last).code == TL_NOTHING, "nothing is left");
  return count;
}

static tl_reception offered(tl_client *client, tl_monitor *monitor, tl_beat beat) {
  tl_reception reception = {0};
  want(tl_monitor_push(monitor, 0, &beat).code == TL_OK, "the peer's beat breaks no rule");
  want(tl_client_offer(client, &beat, &reception).code == TL_OK, "the client takes it");
  return reception;
}

static tl_outcome asked(tl_client *client, tl_operation operation) {
  tl_outcome outcome = {0};
  want(tl_client_ask(client, &operation, &outcome).code == TL_OK, "an operation is asked for");
  return outcome;
}

static void granted(tl_client *client, tl_monitor *monitor, uint8_t width) {
  tl_beat beat = {.channel = TL_CHANNEL_D, .opcode = TL_D_GrantData, .param = 0, .size = 6, .sink = 3};
  tl_reception reception = {0};
  for (int i = 0; i < 64 / width; i++) {
    for (int lane = 0; lane < width; lane++) beat.lanes[lane] = (uint8_t)(width * i + lane);
    reception = offered(client, monitor, beat);
    want(reception.kind == (i + 1 < 64 / width ? TL_TAKEN : TL_DONE_GRANTED), "the last beat completes the Grant");
  }
  want(reception.perm == TL_TRUNK && reception.source == 0, "Trunk is granted");
}

static void a_block_at(uint8_t width) {
  const uint8_t levels[1] = {TL_C};
  tl_monitor monitor = {0};
  tl_client client = opened(TL_C, width);
  tl_beat last;
  uint8_t perm = 9, bytes[64];
  want(tl_monitor_new(&monitor, levels, 1, width, 1).code == TL_OK, "a monitor is made");
  tl_outcome outcome = asked(&client, (tl_operation){.kind = TL_ACQUIRE, .block = 1, .param = TL_NtoT});
  want(outcome.kind == TL_STARTED && outcome.source == 0, "an Acquire starts with source 0");
  want(asked(&client, (tl_operation){.kind = TL_ACQUIRE, .block = 1, .param = TL_NtoT}).busy == 2, "one at a time");
  want(sent(&client, &monitor, TL_CHANNEL_C, &last) == 0, "nothing waits on another channel");
  want(sent(&client, &monitor, TL_CHANNEL_A, &last) == 1 && last.address == 64, "the Acquire is one beat");
  want(last.mask == (1u << width) - 1, "its mask has the width's bits");
  want(tl_client_copy(&client, 1, &bytes).code == TL_NOTHING, "there is no copy yet");
  granted(&client, &monitor, width);
  want(sent(&client, &monitor, TL_CHANNEL_E, &last) == 1 && last.sink == 3, "the GrantAck repeats the sink");
  want(tl_client_held(&client, 1, &perm).code == TL_OK && perm == TL_TRUNK, "Trunk is held");
  want(asked(&client, (tl_operation){.kind = TL_LOAD, .address = 66, .size = 1}).value == 0x0302, "a Load");
  want(asked(&client, (tl_operation){.kind = TL_STORE, .address = 127, .value = 0xa5}).kind == TL_STORED, "a Store");
  want(tl_client_copy(&client, 1, &bytes).code == TL_OK && bytes[63] == 0xa5 && bytes[62] == 62, "the copy");
  tl_beat probe = {.channel = TL_CHANNEL_B, .opcode = TL_B_ProbeBlock, .param = 2, .size = 6, .address = 64};
  probe.mask = (uint16_t)((1u << width) - 1);
  want(offered(&client, &monitor, probe).kind == TL_TAKEN, "a Probe is taken");
  want(sent(&client, &monitor, TL_CHANNEL_C, &last) == 64 / width, "the ProbeAckData has its beats");
  want(last.opcode == TL_C_ProbeAckData && last.lanes[width - 1] == 0xa5, "in order, the last one last");
  want(tl_client_held(&client, 1, &perm).code == TL_OK && perm == TL_NONE, "nothing is held then");
  tl_client_free(&client);
  want(client.full == 0, "a handle that was freed holds nothing");
  tl_monitor_free(&monitor);
}

static void what_is_refused(void) {
  tl_client client = {0};
  tl_outcome outcome = {0};
  tl_reception reception = {0};
  tl_beat beat = {0};
  uint8_t told = 9;
  want(tl_client_ask(&client, &(tl_operation){0}, &outcome).code == TL_BAD_ARGUMENT, "an empty handle");
  want(tl_client_new(&client, 3, 4, 2, 8, 1).code == TL_BAD_ARGUMENT, "level 3");
  want(tl_client_new(&client, TL_C, 0, 2, 8, 1).code == TL_BAD_ARGUMENT, "no blocks");
  want(tl_client_new(&client, TL_C, 1025, 2, 8, 1).code == TL_BAD_ARGUMENT, "1,025 blocks");
  want(tl_client_new(&client, TL_C, 4, 9, 8, 1).code == TL_BAD_ARGUMENT, "9 sources");
  want(tl_client_new(&client, TL_C, 4, 2, 32, 1).code == TL_BAD_ARGUMENT, "a width of 32");
  want(tl_client_new(&client, TL_C, 4, 2, 8, 0).code == TL_BAD_ARGUMENT, "profile 0");
  client = opened(TL_UL, 8);
  want(tl_client_new(&client, TL_C, 4, 2, 8, 1).code == TL_BAD_ARGUMENT, "a handle that holds a client");
  want(tl_client_ask(&client, &(tl_operation){.kind = 6}, &outcome).code == TL_BAD_ARGUMENT, "kind 6");
  want(tl_client_ask(&client, &(tl_operation){.kind = TL_ACQUIRE, .param = 3}, &outcome).code == TL_BAD_ARGUMENT, "grow 3");
  want(tl_client_ask(&client, &(tl_operation){.kind = TL_ACCESS, .size = 7}, &outcome).code == TL_BAD_ARGUMENT, "size 7");
  want(tl_client_next(&client, 5, &beat).code == TL_BAD_ARGUMENT, "channel 5");
  beat.channel = 5;
  want(tl_client_offer(&client, &beat, &reception).code == TL_BAD_ARGUMENT, "a beat of channel 5");
  want(tl_client_stalls(&client, &beat, &told).code == TL_BAD_ARGUMENT && told == 9, "and nothing is told of it");
  want(asked(&client, (tl_operation){.kind = TL_LOAD}).busy == 4, "a client of level UL loads nothing");
  tl_operation get = {.kind = TL_ACCESS, .opcode = TL_A_Get, .size = 3, .mask = 0xff};
  want(asked(&client, get).kind == TL_STARTED, "it asks for a Get");
  tl_beat answer = {.channel = TL_CHANNEL_D, .opcode = TL_D_AccessAck, .size = 3, .source = 1};
  want(tl_client_stalls(&client, &answer, &told).code == TL_OK && told == 0, "a response never waits");
  tl_answer refused = tl_client_offer(&client, &answer, &reception);
  want(refused.code == TL_BROKEN && refused.rule == TL_H2, "a response to nothing is refused");
  want(tl_client_closed(&client, &told).code == TL_OK && told == 1, "by which the link is closed");
  tl_client_free(&client);
  tl_client_free(&client);
}

int main(void) {
  a_block_at(4);
  a_block_at(8);
  a_block_at(16);
  what_is_refused();
  printf("%d failures\n", failures);
  return failures != 0;
}
