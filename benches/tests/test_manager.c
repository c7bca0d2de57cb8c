/* A manager and two clients from C at each width and under both profiles: a block is written by one
   client and read by the other, each beat judged by the proved monitor, until nothing waits; then every
   way to be refused. It is built with the sanitizers too. */
#include "want.h"
#include <hefrudyl.h>
#include <stdio.h>
#include <string.h>

static const tl_link_config links[2] = {{TL_C, 2}, {TL_C, 2}};

typedef struct world {
  tl_manager manager;
  tl_client clients[2];
  tl_monitor monitor;
  int beats;
} world;

static world opened(uint8_t width, uint8_t profile) {
  static const uint8_t levels[2] = {TL_C, TL_C};
  world made = {0};
  want(tl_manager_new(&made.manager, links, 2, 4, 1, width, profile).code == TL_OK, "a manager is made");
  want(tl_monitor_new(&made.monitor, levels, 2, width, profile).code == TL_OK, "a monitor is made");
  for (int i = 0; i < 2; i++)
    want(tl_client_new(&made.clients[i], TL_C, 4, 2, width, profile).code == TL_OK, "a client is made");
  return made;
}

static void freed(world *it) {
  tl_manager_free(&it->manager);
  want(it->manager.full == 0, "a handle that was freed holds nothing");
  tl_monitor_free(&it->monitor);
  for (int i = 0; i < 2; i++) tl_client_free(&it->clients[i]);
}

/* Brings the first beat that a client has on a channel to the manager: whether one moved. */
static int sent_up(world *it, uint8_t link, uint8_t channel) {
  tl_beat beat, popped;
  uint8_t taken = 9, stalled = 9;
  if (tl_client_next(&it->clients[link], channel, &beat).code != TL_OK) return 0;
  want(tl_manager_stalls(&it->manager, link, &beat, &stalled).code == TL_OK, "the manager tells whether it would wait");
  want(tl_manager_offer(&it->manager, link, &beat, &taken).code == TL_OK, "the manager takes it or lets it wait");
  want(taken == 1 - stalled, "as it told");
  if (!taken) return 0;
  want(tl_client_pop(&it->clients[link], channel, &popped).code == TL_OK, "then it is sent");
  want(tl_monitor_push(&it->monitor, link, &beat).code == TL_OK, "what a client sends breaks no rule");
  it->beats++;
  return 1;
}

/* Brings the first beat that the manager has on a channel of a link to its client: whether one moved. */
static int sent_down(world *it, uint8_t link, uint8_t channel) {
  tl_beat beat, popped;
  tl_reception reception = {0};
  uint8_t stalled = 9;
  if (tl_manager_next(&it->manager, link, channel, &beat).code != TL_OK) return 0;
  want(tl_client_stalls(&it->clients[link], &beat, &stalled).code == TL_OK, "the client tells whether it would wait");
  if (stalled) return 0;
  want(tl_manager_pop(&it->manager, link, channel, &popped).code == TL_OK, "what is shown can be popped");
  want(memcmp(&beat, &popped, sizeof beat) == 0 && beat.channel == channel, "what is popped is what was shown");
  want(tl_client_offer(&it->clients[link], &beat, &reception).code == TL_OK, "the client takes it");
  want(tl_monitor_push(&it->monitor, link, &beat).code == TL_OK, "what the manager sends breaks no rule");
  it->beats++;
  return 1;
}

/* Moves beats until none can be moved, and tells how many there were. */
static int settled(world *it) {
  it->beats = 0;
  for (int moved = 1; moved;) {
    moved = 0;
    for (uint8_t link = 0; link < 2; link++) {
      moved |= sent_up(it, link, TL_CHANNEL_A) | sent_up(it, link, TL_CHANNEL_C) | sent_up(it, link, TL_CHANNEL_E);
      moved |= sent_down(it, link, TL_CHANNEL_B) | sent_down(it, link, TL_CHANNEL_D);
    }
  }
  return it->beats;
}

static tl_outcome asked(world *it, int client, tl_operation operation) {
  tl_outcome outcome = {0};
  want(tl_client_ask(&it->clients[client], &operation, &outcome).code == TL_OK, "an operation is asked for");
  return outcome;
}

static uint8_t held(world *it, int client) {
  uint8_t perm = 9;
  want(tl_client_held(&it->clients[client], 1, &perm).code == TL_OK, "what is held");
  return perm;
}

static uint64_t pending(world *it, uint8_t link) {
  uint64_t entries = 99;
  want(tl_monitor_entries(&it->monitor, link, &entries).code == TL_OK, "what is pending on a link");
  return entries;
}

static void a_block_goes_from_one_to_the_other(uint8_t width, uint8_t profile) {
  world it = opened(width, profile);
  int burst = 64 / width;
  uint8_t bytes[64], other[64], closed = 9;
  const tl_operation to_write = {.kind = TL_ACQUIRE, .block = 1, .param = TL_NtoT};
  const tl_operation to_read = {.kind = TL_ACQUIRE, .block = 1, .param = TL_NtoB};
  want(asked(&it, 0, to_write).kind == TL_STARTED && asked(&it, 1, to_read).kind == TL_STARTED, "both ask for it");
  /* an Acquire, its Grant and GrantAck; the other Acquire, which waits for the one tracker, a Probe and
     its answer with the bytes, the Grant and its GrantAck */
  want(settled(&it) == (1 + burst + 1) + (1 + 1 + burst + burst + 1), "what both asked for comes, in so many beats");
  want(held(&it, 0) == TL_BRANCH && held(&it, 1) == TL_BRANCH, "both may read it");
  want(pending(&it, 0) == 1 && pending(&it, 1) == 1, "one block is held on each link, and nothing is pending");
  want(asked(&it, 0, (tl_operation){.kind = TL_ACQUIRE, .block = 1, .param = TL_BtoT}).kind == TL_STARTED, "more");
  want(settled(&it) == 5, "the other one is probed, and no data come");
  want(held(&it, 0) == TL_TRUNK && held(&it, 1) == TL_NONE, "one may write, and the other has nothing");
  for (uint32_t i = 0; i < 64; i += 8) {
    tl_operation store = {.kind = TL_STORE, .address = 64 + i, .size = 3, .value = 0x0101010101010101u * (i + 1)};
    want(asked(&it, 0, store).kind == TL_STORED, "a Store");
  }
  want(asked(&it, 1, to_read).kind == TL_STARTED && settled(&it) == 2 * burst + 3, "what was written comes by a Probe");
  want(tl_client_copy(&it.clients[0], 1, &bytes).code == TL_OK, "a copy");
  want(tl_client_copy(&it.clients[1], 1, &other).code == TL_OK, "another");
  want(memcmp(bytes, other, sizeof bytes) == 0 && bytes[0] == 1 && bytes[63] == 57, "of one block");
  want(tl_manager_closed(&it.manager, 0, &closed).code == TL_OK && closed == 0, "no link is closed");
  freed(&it);
}

static void what_is_refused(void) {
  tl_manager manager = {0};
  tl_beat beat = {.channel = TL_CHANNEL_A, .opcode = TL_A_Get, .size = 3, .mask = 0xff}, shown = {.address = 7};
  tl_link_config wrong[17] = {{0}};
  uint8_t told = 9;
  want(tl_manager_offer(&manager, 0, &beat, &told).code == TL_BAD_ARGUMENT && told == 9, "an empty handle");
  want(tl_manager_new(&manager, links, 0, 4, 1, 8, 1).code == TL_BAD_ARGUMENT, "no links");
  for (int i = 0; i < 17; i++) wrong[i] = links[0];
  want(tl_manager_new(&manager, wrong, 17, 4, 1, 8, 1).code == TL_BAD_ARGUMENT, "17 links");
  wrong[1].level = 3;
  want(tl_manager_new(&manager, wrong, 2, 4, 1, 8, 1).code == TL_BAD_ARGUMENT, "level 3");
  wrong[1] = (tl_link_config){TL_C, 9};
  want(tl_manager_new(&manager, wrong, 2, 4, 1, 8, 1).code == TL_BAD_ARGUMENT, "9 sources");
  want(tl_manager_new(&manager, links, 2, 0, 1, 8, 1).code == TL_BAD_ARGUMENT, "no blocks");
  want(tl_manager_new(&manager, links, 2, 1025, 1, 8, 1).code == TL_BAD_ARGUMENT, "1,025 blocks");
  want(tl_manager_new(&manager, links, 2, 4, 9, 8, 1).code == TL_BAD_ARGUMENT, "9 trackers");
  want(tl_manager_new(&manager, links, 2, 4, 1, 12, 1).code == TL_BAD_ARGUMENT, "a width of 12");
  want(tl_manager_new(&manager, links, 2, 4, 1, 8, 3).code == TL_BAD_ARGUMENT, "profile 3");
  want(manager.full == 0, "nothing was made");
  want(tl_manager_new(&manager, links, 2, 4, 1, 8, 1).code == TL_OK, "a manager");
  want(tl_manager_new(&manager, links, 2, 4, 1, 8, 1).code == TL_BAD_ARGUMENT, "a handle that holds one");
  want(tl_manager_offer(&manager, 16, &beat, &told).code == TL_BAD_ARGUMENT && told == 9, "link 16");
  want(tl_manager_next(&manager, 0, 5, &shown).code == TL_BAD_ARGUMENT && shown.address == 7, "channel 5");
  want(tl_manager_pop(&manager, 0, TL_CHANNEL_D, &shown).code == TL_NOTHING && shown.address == 7, "nothing waits");
  want(tl_manager_closed(&manager, 16, &told).code == TL_BAD_ARGUMENT && told == 9, "link 16 again");
  beat.opcode = 8;
  want(tl_manager_offer(&manager, 0, &beat, &told).code == TL_BAD_ARGUMENT && told == 9, "opcode 8");
  want(tl_manager_stalls(&manager, 0, &beat, &told).code == TL_BAD_ARGUMENT && told == 9, "and nothing is told of it");
  beat.opcode = TL_A_Get;
  want(tl_manager_offer(&manager, 0, &beat, &told).code == TL_OK && told == 1, "a Get is taken");
  want(tl_manager_pop(&manager, 1, TL_CHANNEL_D, &shown).code == TL_NOTHING, "nothing waits on the other link");
  want(tl_manager_pop(&manager, 0, TL_CHANNEL_B, &shown).code == TL_NOTHING, "nor on another channel");
  want(tl_manager_pop(&manager, 0, TL_CHANNEL_D, &shown).code == TL_OK, "its answer is sent");
  want(shown.channel == TL_CHANNEL_D && shown.opcode == TL_D_AccessAckData, "and it is one");
  want(tl_manager_pop(&manager, 0, TL_CHANNEL_D, &shown).code == TL_NOTHING, "it is sent once");
  tl_beat acknowledge = {.channel = TL_CHANNEL_E, .sink = 5};
  tl_answer refused = tl_manager_offer(&manager, 1, &acknowledge, &told);
  want(refused.code == TL_BROKEN && refused.rule == TL_H8, "a GrantAck of nothing is refused");
  want(tl_manager_closed(&manager, 1, &told).code == TL_OK && told == 1, "by which the link is closed");
  want(tl_manager_offer(&manager, 1, &beat, &told).rule == TL_A3, "and takes no beats");
  want(tl_manager_offer(&manager, 0, &beat, &told).code == TL_OK && told == 1, "the other one does");
  tl_manager_free(&manager);
  tl_manager_free(&manager);
}

static const uint8_t probe_sources[2] = {3, 4};

static tl_manager manager_under(uint8_t liberties) {
  tl_manager made = {0};
  want(tl_manager_new_under(&made, links, 2, 4, 2, 8, liberties, probe_sources, 2).code == TL_OK, "clients with liberties");
  return made;
}

static tl_beat message(uint8_t channel, uint8_t opcode, uint8_t param, uint8_t source) {
  return (tl_beat){.channel = channel, .opcode = opcode, .param = param, .size = 6, .source = source,
                   .mask = channel == TL_CHANNEL_A ? 0xff : 0};
}

/* What a manager says of a beat: 1 where it is taken, 0 where it waits, and else minus the rule. */
static int given(tl_manager *manager, uint8_t link, tl_beat beat) {
  uint8_t taken = 9;
  tl_answer answer = tl_manager_offer(manager, link, &beat, &taken);
  return answer.code == TL_OK ? taken : -answer.rule;
}

/* Takes the message that waits on a channel of a link, and gives its first beat. */
static tl_beat sent(tl_manager *manager, uint8_t link, uint8_t channel) {
  tl_beat first = {0}, next;
  want(tl_manager_pop(manager, link, channel, &first).code == TL_OK, "a message waits");
  while (tl_manager_pop(manager, link, channel, &next).code == TL_OK) continue;
  return first;
}

/* Grants block 0 to link 0 to write. */
static void granted_to_write(tl_manager *manager) {
  want(given(manager, 0, message(TL_CHANNEL_A, TL_A_AcquireBlock, TL_NtoT, 1)) == 1, "an Acquire");
  want(sent(manager, 0, TL_CHANNEL_D).opcode == TL_D_GrantData, "is granted");
  want(given(manager, 0, (tl_beat){.channel = TL_CHANNEL_E}) == 1, "and acknowledged");
}

static void probes_have_the_source_of_their_link(void) {
  for (uint8_t right = 0; right <= 1; right++) {
    tl_manager manager = manager_under(TL_IDS);
    granted_to_write(&manager);
    want(given(&manager, 1, message(TL_CHANNEL_A, TL_A_AcquireBlock, TL_NtoT, 0)) == 1, "another one");
    want(sent(&manager, 0, TL_CHANNEL_B).source == 3, "the Probe has the source of link 0");
    tl_beat report = message(TL_CHANNEL_C, TL_C_ProbeAck, TL_TtoN, right ? 3 : 0);
    want(given(&manager, 0, report) == (right ? 1 : -TL_H10), "which its answer has to have");
    tl_manager_free(&manager);
  }
}

static void a_copy_may_be_dropped(void) {
  tl_manager manager = manager_under(TL_DROPS);
  granted_to_write(&manager);
  want(given(&manager, 0, message(TL_CHANNEL_A, TL_A_AcquireBlock, TL_NtoB, 1)) == 1, "it is asked for again");
  want(sent(&manager, 0, TL_CHANNEL_D).param == 1, "and granted to read");
  want(given(&manager, 0, (tl_beat){.channel = TL_CHANNEL_E}) == 1, "and acknowledged");
  want(given(&manager, 1, message(TL_CHANNEL_A, TL_A_AcquireBlock, TL_NtoT, 0)) == 1, "another one asks");
  want(sent(&manager, 0, TL_CHANNEL_B).source == 0, "a Probe without TL_IDS");
  want(given(&manager, 0, message(TL_CHANNEL_C, TL_C_ProbeAck, 5, 0)) == 1, "nothing is held any more");
  want(sent(&manager, 1, TL_CHANNEL_D).opcode == TL_D_GrantData, "so it is granted");
  tl_manager_free(&manager);
  manager = manager_under(TL_NO_LIBERTIES);
  granted_to_write(&manager);
  want(given(&manager, 0, message(TL_CHANNEL_A, TL_A_AcquireBlock, TL_NtoB, 1)) == -TL_H5, "none without TL_DROPS");
  tl_manager_free(&manager);
}

static void a_copy_may_be_written_back_and_kept(void) {
  tl_manager manager = manager_under(TL_REPORTS);
  tl_beat clean = message(TL_CHANNEL_C, TL_C_ReleaseData, 3, 0), get = message(TL_CHANNEL_A, TL_A_Get, 0, 0);
  granted_to_write(&manager);
  for (int i = 0; i < 8; i++) {
    clean.lanes[0] = (uint8_t)(i + 1);
    want(given(&manager, 0, clean) == 1, "a ReleaseData TtoT");
  }
  want(sent(&manager, 0, TL_CHANNEL_D).opcode == TL_D_ReleaseAck, "is answered");
  want(given(&manager, 1, get) == 1 && sent(&manager, 0, TL_CHANNEL_B).param == 1, "its client is recorded to hold it");
  want(given(&manager, 0, message(TL_CHANNEL_C, TL_C_ProbeAck, TL_TtoB, 0)) == 1, "reports it clean");
  want(sent(&manager, 1, TL_CHANNEL_D).lanes[0] == 1, "and the other one reads what was written back");
  tl_manager_free(&manager);
}

static void a_lone_reader_may_be_granted_to_write(void) {
  tl_manager manager = manager_under(TL_WRITER);
  want(given(&manager, 0, message(TL_CHANNEL_A, TL_A_AcquireBlock, TL_NtoB, 0)) == 1, "an Acquire to read");
  want(sent(&manager, 0, TL_CHANNEL_D).param == 0, "is granted to write");
  tl_manager_free(&manager);
}

static void liberties_that_a_manager_does_not_grant(void) {
  static const uint8_t others[4] = {TL_SINKS, TL_EARLY, TL_DENIED, TL_UNCORRUPT};
  tl_manager manager = {0};
  for (int i = 0; i < 4; i++)
    want(tl_manager_new_under(&manager, links, 2, 4, 2, 8, TL_IDS | others[i], probe_sources, 2).code == TL_BAD_ARGUMENT,
         "another liberty");
  want(tl_manager_new_under(&manager, links, 2, 4, 2, 8, TL_IDS, probe_sources, 1).code == TL_BAD_ARGUMENT, "1 source");
  want(tl_manager_new_under(&manager, links, 1, 4, 2, 8, TL_IDS, probe_sources, 2).code == TL_BAD_ARGUMENT, "2 sources");
  want(tl_manager_new_under(&manager, links, 2, 4, 9, 8, TL_IDS, probe_sources, 2).code == TL_BAD_ARGUMENT, "9 trackers");
  want(manager.full == 0, "nothing was made");
}

static void handles_of_another_kind(void) {
  tl_manager manager = {0};
  want(tl_manager_new(&manager, links, 2, 4, 1, 8, 1).code == TL_OK, "a manager");
  /* the bytes of a handle are the same for each kind; a call of another kind leaves it as it is */
  tl_monitor monitor = {manager.at, manager.full};
  const tl_beat acknowledge = {.channel = TL_CHANNEL_E, .sink = 5};
  uint64_t entries = 99;
  want(tl_monitor_push(&monitor, 0, &acknowledge).code == TL_BAD_ARGUMENT, "a manager judges nothing");
  want(tl_monitor_entries(&monitor, 0, &entries).code == TL_BAD_ARGUMENT && entries == 99, "and counts nothing");
  want(monitor.full == 1, "and is left as it was");
  tl_monitor_free(&monitor);
}

static tl_answer line(tl_monitor *monitor, const char *text) {
  return tl_monitor_push_line(monitor, (const uint8_t *)text, strlen(text));
}

static void lines(void) {
  static const uint8_t levels[1] = {TL_C};
  tl_monitor monitor = {0};
  uint64_t entries = 99;
  want(line(&monitor, "00 E 03\n").code == TL_BAD_ARGUMENT, "an empty handle judges no line");
  want(tl_monitor_new(&monitor, levels, 1, 8, 1).code == TL_OK, "a monitor");
  want(line(&monitor, "00 A 6 1 6 02 00000080 ff - 0\n").code == TL_OK, "an Acquire as a line");
  want(line(&monitor, "00 A 6 1 6 02 00000080 ff - 0").code == TL_BAD_ARGUMENT, "without a line feed");
  want(line(&monitor, "00 A 6 1 6 02 00000080 ffff - 0\n").code == TL_BAD_ARGUMENT, "with a mask of another width");
  want(line(&monitor, "").code == TL_BAD_ARGUMENT, "an empty line");
  want(tl_monitor_entries(&monitor, 16, &entries).code == TL_BAD_ARGUMENT && entries == 99, "link 16");
  want(tl_monitor_entries(&monitor, 0, &entries).code == TL_OK && entries == 2, "the request, and its transfer");
  tl_answer broken = line(&monitor, "00 E 03\n");
  want(broken.code == TL_BROKEN && broken.rule == TL_H8, "a GrantAck of nothing as a line");
  want(line(&monitor, "00 E 03\n").code == TL_CLOSED, "after which the monitor is closed");
  tl_monitor_free(&monitor);
}

static void texts(void) {
  uint8_t text[128];
  for (int code = TL_OK; code <= TL_TOO_MANY; code++) {
    size_t count = tl_error_text((uint8_t)code, text, sizeof text);
    want(count > 3 && count < sizeof text, "each code has a text");
  }
  want(tl_error_text(TL_OK, text, sizeof text) == 4 && memcmp(text, "done", 4) == 0, "done");
  text[2] = '?';
  want(tl_error_text(TL_OK, text, 2) == 2 && text[2] == '?', "no more than there is room for");
  want(tl_error_text(TL_TOO_MANY + 1, text, sizeof text) == 0, "there is no code after the last");
}

int main(void) {
  static const uint8_t widths[3] = {4, 8, 16};
  for (int i = 0; i < 3; i++)
    for (uint8_t profile = 1; profile <= 2; profile++) a_block_goes_from_one_to_the_other(widths[i], profile);
  what_is_refused();
  probes_have_the_source_of_their_link();
  a_copy_may_be_dropped();
  a_copy_may_be_written_back_and_kept();
  a_lone_reader_may_be_granted_to_write();
  liberties_that_a_manager_does_not_grant();
  handles_of_another_kind();
  lines();
  texts();
  printf("%d failures\n", failures);
  return failures != 0;
}
