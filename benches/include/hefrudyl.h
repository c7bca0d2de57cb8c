/* Hefrudyl for C and C++: the proved link monitor, judge of all links, cover, clients and manager. docs/BENCHES.md says what is proved, and what a
   program that calls it must see to: a handle is used by one call at a time. */
#ifndef HEFRUDYL_H
#define HEFRUDYL_H

#include <stdbool.h>
#include <stddef.h>
#include <stdint.h>

#ifdef __cplusplus
extern "C" {
#endif

enum tl_code {
  TL_OK = 0,           /* done: a beat breaks no rule */
  TL_BROKEN = 1,       /* the beat or commit breaks the rule that the answer names; what judged it is closed */
  TL_BAD_ARGUMENT = 2, /* an argument is out of range, or the handle is empty or not yet freed; nothing changed */
  TL_NO_MEMORY = 3,    /* there is no memory; nothing changed (of a wide beat, tl_monitor_push_wide says what did) */
  TL_CLOSED = 4,       /* an earlier beat or commit broke a rule */
  TL_NOTHING = 5,      /* no beat waits, or no copy is held; nothing changed */
  TL_TOO_MANY = 6      /* more blocks, sources or sinks than can be numbered; nothing changed */
};

enum tl_rule {
  TL_NO_RULE = 0,
  TL_L1 = 1, TL_L2 = 2, TL_L3 = 3, TL_L4 = 4, TL_L5 = 5, TL_L6 = 6, TL_L7 = 7,
  TL_S1 = 8,
  TL_H1 = 9, TL_H2 = 10, TL_H3 = 11, TL_H4 = 12, TL_H5 = 13, TL_H6 = 14, TL_H7 = 15, TL_H8 = 16,
  TL_H9 = 17, TL_H10 = 18, TL_H11 = 19, TL_H12 = 20, TL_H13 = 21,
  TL_A1 = 22, TL_A2 = 23, TL_A3 = 24,
  TL_M1 = 25, TL_M2 = 26, TL_M3 = 27, TL_M4 = 28, /* of a judge of all links */
  TL_M5 = 29, TL_M6 = 30, TL_M7 = 31 /* of a judge of beats and commits */
};

enum tl_level { TL_UL = 0, TL_UH = 1, TL_C = 2 };

/* What a link may do beyond profile 1: a set of these is their sum (docs/PROTOCOL.md, "Liberties"). */
enum tl_liberty {
  TL_NO_LIBERTIES = 0,
  TL_IDS = 1,         /* any source on channel B; a ProbeAck has the source of its Probe */
  TL_SINKS = 2,       /* any sink on channel D without a Grant */
  TL_WRITER = 4,      /* an AcquireBlock NtoB may be granted toT, as under profile 2 */
  TL_EARLY = 8,       /* a response may begin once its request has begun, a GrantAck once its Grant has */
  TL_DROPS = 16,      /* a client may give up a block without a message */
  TL_REPORTS = 32,    /* a Release may have any of the six reports */
  TL_DENIED = 64,     /* a Grant may be denied */
  TL_STANDARD = 127,  /* all of these */
  TL_UNCORRUPT = 128  /* a denied AccessAckData needn't be corrupt, which the standard wants */
};

enum tl_channel { TL_CHANNEL_A = 0, TL_CHANNEL_B = 1, TL_CHANNEL_C = 2, TL_CHANNEL_D = 3, TL_CHANNEL_E = 4 };

enum tl_opcode {
  TL_A_PutFullData = 0, TL_A_PutPartialData = 1, TL_A_ArithmeticData = 2, TL_A_LogicalData = 3,
  TL_A_Get = 4, TL_A_Intent = 5, TL_A_AcquireBlock = 6, TL_A_AcquirePerm = 7,
  TL_B_PutFullData = 0, TL_B_PutPartialData = 1, TL_B_ArithmeticData = 2, TL_B_LogicalData = 3,
  TL_B_Get = 4, TL_B_Intent = 5, TL_B_ProbeBlock = 6, TL_B_ProbePerm = 7,
  TL_C_AccessAck = 0, TL_C_AccessAckData = 1, TL_C_HintAck = 2, TL_C_ProbeAck = 4,
  TL_C_ProbeAckData = 5, TL_C_Release = 6, TL_C_ReleaseData = 7,
  TL_D_AccessAck = 0, TL_D_AccessAckData = 1, TL_D_HintAck = 2, TL_D_Grant = 4,
  TL_D_GrantData = 5, TL_D_ReleaseAck = 6
};

/* The fields of a beat. Byte i of the lanes is lane i; denied and corrupt are 0 or 1. What the channel
   lacks is 0, and so are the lanes where the opcode carries no data and those beyond the width. */
typedef struct tl_beat {
  uint8_t lanes[16];
  uint32_t address;
  uint16_t mask;
  uint8_t channel;
  uint8_t opcode;
  uint8_t param;
  uint8_t size;
  uint8_t source;
  uint8_t sink;
  uint8_t denied;
  uint8_t corrupt;
} tl_beat;

/* The fields of a wide beat, of at most 64 bytes, likewise: bit i of the mask is that of lane i. */
typedef struct tl_wide_beat {
  uint8_t lanes[64];
  uint64_t address;
  uint64_t mask;
  uint16_t source;
  uint16_t sink;
  uint8_t channel;
  uint8_t opcode;
  uint8_t param;
  uint8_t size;
  uint8_t denied;
  uint8_t corrupt;
} tl_wide_beat;

enum tl_commit_kind { TL_COMMIT_STORE = 0, TL_COMMIT_LOAD = 1, TL_COMMIT_BEGIN = 2 };

/* A commit of the core of a link: a store to its cache's copy, a load from it, or the beginning of a load. It reaches the
   2^size bytes, size 0 to 3, from an address on that is a multiple of their number. The value has these bytes, the lowest
   address in the lowest byte; that of a beginning is 0. A link that isn't wide has addresses of 32 bits. */
typedef struct tl_commit {
  uint64_t value;
  uint64_t address;
  uint8_t kind; /* enum tl_commit_kind */
  uint8_t size;
} tl_commit;

typedef struct tl_answer {
  uint8_t code; /* enum tl_code */
  uint8_t rule; /* enum tl_rule */
} tl_answer;

/* A handle. One that is all zero holds nothing, and each call takes such a one too. */
typedef struct tl_monitor {
  void *at;
  uint8_t full;
} tl_monitor;

/* Makes a monitor of 1 to 16 links of these levels (enum tl_level), of beats of 4, 8 or 16 bytes, under
   profile 1 or 2, behind a handle that holds nothing. */
tl_answer tl_monitor_new(tl_monitor *monitor, const uint8_t *levels, size_t links, uint8_t width,
                         uint8_t profile);

/* The same of links that have these liberties (the sum of enum tl_liberty). */
tl_answer tl_monitor_new_under(tl_monitor *monitor, const uint8_t *levels, size_t links, uint8_t width,
                               uint8_t liberties);

/* Judges a beat of a link, 0 to 15, after the earlier beats of that link. */
tl_answer tl_monitor_push(tl_monitor *monitor, uint8_t link, const tl_beat *beat);

/* The same, but the monitor goes on where a beat breaks a rule: the beat isn't taken, and the next is judged
   as if it weren't there. */
tl_answer tl_monitor_try_push(tl_monitor *monitor, uint8_t link, const tl_beat *beat);

/* Judges the beat of a line of a trace, which ends in a line feed (docs/FORMATS.md). A line that spells
   no beat is TL_BAD_ARGUMENT. */
tl_answer tl_monitor_push_line(tl_monitor *monitor, const uint8_t *line, size_t length);

/* Makes a monitor of wide beats, of 4, 8, 16, 32 or 64 bytes, of links that have these liberties. */
tl_answer tl_monitor_new_wide(tl_monitor *monitor, const uint8_t *levels, size_t links, uint8_t width,
                              uint8_t liberties);

/* Judges a wide beat of a link, 0 to 15, by the beats of at most 16 bytes that it becomes (docs/FORMATS.md, "Wide
   beats"): the rule is that of the first of them at fault. A beat that names more than 2^26 blocks, 256 sources of its
   link or 256 sinks in all is TL_TOO_MANY. After TL_NO_MEMORY the same beat may be pushed again; another one may be
   TL_BAD_ARGUMENT, if a part of the first is taken already. The monitor must be one of wide beats; the other calls on
   it but tl_monitor_free are TL_BAD_ARGUMENT. */
tl_answer tl_monitor_push_wide(tl_monitor *monitor, uint8_t link, const tl_wide_beat *beat);

/* Tells how many keys are pending on a link, and how many blocks are held there, together. */
tl_answer tl_monitor_entries(tl_monitor *monitor, uint8_t link, uint64_t *entries);

/* Frees what the handle holds. It holds nothing then. */
void tl_monitor_free(tl_monitor *monitor);

/* A handle, as that of a monitor. */
typedef struct tl_judge {
  void *at;
  uint8_t full;
} tl_judge;

/* Makes a judge of all links of one manager, which are 1 to 16 of these levels (enum tl_level), of beats of
   4, 8 or 16 bytes, under profile 1 or 2, behind a handle that holds nothing. */
tl_answer tl_judge_new(tl_judge *judge, const uint8_t *levels, size_t links, uint8_t width, uint8_t profile);

/* The same of links that have these liberties (the sum of enum tl_liberty). */
tl_answer tl_judge_new_under(tl_judge *judge, const uint8_t *levels, size_t links, uint8_t width,
                             uint8_t liberties);

/* Judges a beat of a link, 0 to 15, after the earlier beats of all links: by the rules of its link, and
   then by those of memory. Beats are pushed in the order in which they were taken; those of one clock edge
   by channel, the A of each link, then B, C, D and E, so that a report stands before the Grant that it
   allows. */
tl_answer tl_judge_push(tl_judge *judge, uint8_t link, const tl_beat *beat);

/* The same, but the judge goes on where a beat breaks a rule, as tl_monitor_try_push does. */
tl_answer tl_judge_try_push(tl_judge *judge, uint8_t link, const tl_beat *beat);

/* Judges the beat of a line of a trace so, which ends in a line feed; a judge of beats and commits judges the commit of one
   too (docs/BENCHES.md, "Stores and loads"). A line that spells neither is TL_BAD_ARGUMENT. */
tl_answer tl_judge_push_line(tl_judge *judge, const uint8_t *line, size_t length);

/* Makes a judge of beats and commits of links that have these liberties. `complete` has as many numbers as there are levels:
   1 where all stores of the link will be judged (level C+ of a trace), else 0. It judges beats as one of tl_judge_new_under
   does, and then by M7, by which a report gives back what was stored. */
tl_answer tl_judge_new_commits(tl_judge *judge, const uint8_t *levels, size_t links, const uint8_t *complete,
                               size_t complete_count, uint8_t width, uint8_t liberties);

/* The same, and `zero` is 1 where memory was zero before the first beat (the word `zero` of a trace), else 0: then it may
   have been anything, as for tl_judge_new_commits. */
tl_answer tl_judge_new_commits_zero(tl_judge *judge, const uint8_t *levels, size_t links, const uint8_t *complete,
                                    size_t complete_count, uint8_t zero, uint8_t width, uint8_t liberties);

/* Judges a commit of a link, 0 to 15, after the earlier beats and commits of all links: L1 where the link has no cache,
   M5 where the cache hasn't the copy that was stored to or loaded from, M6 where a load brought a byte that the copy can't
   have. Of one clock edge those commits come first that see the copy as it is before the edge, then the beats, then those
   that use a beat of the edge. A field out of its range, or a judge of beats alone, is TL_BAD_ARGUMENT. A judge of wide beats
   and commits also answers TL_TOO_MANY and TL_NO_MEMORY as it does to a wide beat. */
tl_answer tl_judge_commit(tl_judge *judge, uint8_t link, const tl_commit *commit);

/* The same, but the judge goes on where a commit breaks a rule, as tl_judge_try_push does. One of wide beats and commits
   can't: TL_BAD_ARGUMENT. */
tl_answer tl_judge_try_commit(tl_judge *judge, uint8_t link, const tl_commit *commit);

/* Makes a judge of wide beats, of 4, 8, 16, 32 or 64 bytes, of links that have these liberties. */
tl_answer tl_judge_new_wide(tl_judge *judge, const uint8_t *levels, size_t links, uint8_t width,
                            uint8_t liberties);

/* Makes a judge of wide beats and commits of links that have these liberties; `complete` is that of tl_judge_new_commits.
   Beats are pushed by tl_judge_push_wide, and commits by tl_judge_commit. */
tl_answer tl_judge_new_wide_commits(tl_judge *judge, const uint8_t *levels, size_t links, const uint8_t *complete,
                                    size_t complete_count, uint8_t width, uint8_t liberties);

/* The same, and `zero` is that of tl_judge_new_commits_zero. */
tl_answer tl_judge_new_wide_commits_zero(tl_judge *judge, const uint8_t *levels, size_t links, const uint8_t *complete,
                                         size_t complete_count, uint8_t zero, uint8_t width, uint8_t liberties);

/* Judges a wide beat of a link, after the earlier beats and commits of all links, as tl_monitor_push_wide does. The names of a
   commit count as those of a beat: one that names more than 2^26 blocks is TL_TOO_MANY. After TL_NO_MEMORY the same beat or
   commit may be pushed again; another one may be TL_BAD_ARGUMENT, if the first has begun. */
tl_answer tl_judge_push_wide(tl_judge *judge, uint8_t link, const tl_wide_beat *beat);

/* Frees what the handle holds. It holds nothing then. */
void tl_judge_free(tl_judge *judge);

/* A handle, as that of a monitor: a cover counts how often messages begin in each situation (docs/FORMATS.md, "The
   text of cover"). */
typedef struct tl_cover {
  void *at;
  uint8_t full;
} tl_cover;

/* How often a situation came, and in which line of a trace first: the first beat is line 2, behind the header. The
   line is 0 where the situation didn't come. */
typedef struct tl_tally {
  uint64_t count;
  uint64_t line;
} tl_tally;

/* Situations have numbers from 0 on, in the order in which `tltool cover` writes them. */
enum { TL_SITUATIONS = 79 };

/* How often a bin came on a link, and in which line of a trace first, as in tl_tally. `possible` is 0 where messages of
   the link can't be in the bin, by its level and its liberties, and none was; else 1. */
typedef struct tl_bin_tally {
  uint64_t count;
  uint64_t line;
  uint8_t possible;
} tl_bin_tally;

/* Bins have numbers from 0 on, in the order in which `tltool cover --json` writes them. */
enum { TL_BINS = 203 };

/* Makes a cover of 1 to 16 links of these levels (enum tl_level), of beats of 4, 8 or 16 bytes, that have these
   liberties (the sum of enum tl_liberty), behind a handle that holds nothing. */
tl_answer tl_cover_new(tl_cover *cover, const uint8_t *levels, size_t links, uint8_t width, uint8_t liberties);

/* Judges a beat of a link, 0 to 15, as a monitor does, and counts the situations of the message that begins with it.
   Behind a beat that breaks a rule the cover is closed, and its counts are those of the beats before. After
   TL_NO_MEMORY nothing is known of them. */
tl_answer tl_cover_push(tl_cover *cover, uint8_t link, const tl_beat *beat);

/* Tells how often the situation of a number came. A number that is none's is TL_BAD_ARGUMENT. */
tl_answer tl_cover_count(tl_cover *cover, uint8_t situation, tl_tally *tally);

/* Tells how often the bin of a number came on a link. A link that the cover hasn't, or a number that is none's, is
   TL_BAD_ARGUMENT. */
tl_answer tl_cover_bin(tl_cover *cover, uint8_t link, uint8_t bin, tl_bin_tally *tally);

/* Frees what the handle holds. It holds nothing then. */
void tl_cover_free(tl_cover *cover);

enum tl_operation_kind {
  TL_LOAD = 0, TL_STORE = 1, TL_ACQUIRE = 2, TL_ACQUIRE_WHOLE = 3, TL_RELEASE = 4, TL_ACCESS = 5
};

enum tl_grow { TL_NtoB = 0, TL_NtoT = 1, TL_BtoT = 2 };

enum tl_prune { TL_TtoB = 0, TL_TtoN = 1, TL_BtoN = 2 };

enum tl_perm { TL_NONE = 0, TL_BRANCH = 1, TL_TRUNK = 2 };

/* An operation that a client is asked for. What its kind lacks isn't read: a Load has address and size,
   a Store value too; an Acquire has block and param (enum tl_grow), that of a whole block its bytes, a
   Release block and param (enum tl_prune); an access has opcode, param, size (0 to 6), address, mask and
   bytes, byte i of which is lane i modulo the width. Sizes are base-2 logarithms, blocks have 64 bytes. */
typedef struct tl_operation {
  uint8_t bytes[64];
  uint64_t value;
  uint64_t mask;
  uint32_t address;
  uint16_t block;
  uint8_t kind; /* enum tl_operation_kind */
  uint8_t opcode;
  uint8_t param;
  uint8_t size;
} tl_operation;

enum tl_outcome_kind { TL_VALUE = 0, TL_STORED = 1, TL_MISS = 2, TL_STARTED = 3, TL_BUSY = 4 };

/* The answer to an operation: a value; a source where a message was handed out; where nothing was done
   why, 1 to 5: no source is free, a transfer of the block is outstanding, it doesn't begin at what is
   held, it isn't of the level, it is outside of the map or malformed. */
typedef struct tl_outcome {
  uint64_t value;
  uint8_t kind; /* enum tl_outcome_kind */
  uint8_t source;
  uint8_t busy;
} tl_outcome;

enum tl_reception_kind {
  TL_STALLED = 0, TL_TAKEN = 1, TL_DONE_ACK = 2, TL_DONE_HINT = 3, TL_DONE_DATA = 4, TL_DONE_GRANTED = 5,
  TL_DONE_RELEASED = 6
};

/* The answer to a beat: it has to wait, it was taken, or it completes the response to the request or
   Release with this source. */
typedef struct tl_reception {
  uint8_t bytes[64]; /* of TL_DONE_DATA, from the address on */
  uint8_t kind;      /* enum tl_reception_kind */
  uint8_t source;
  uint8_t size; /* of TL_DONE_DATA */
  uint8_t perm; /* enum tl_perm, of TL_DONE_GRANTED */
} tl_reception;

/* A handle, as that of a monitor. */
typedef struct tl_client {
  void *at;
  uint8_t full;
} tl_client;

/* Makes a client of a level (enum tl_level) on 1 to 1,024 blocks, with 1 to 8 sources, of beats of 4, 8
   or 16 bytes, under profile 1 or 2, behind a handle that holds nothing. */
tl_answer tl_client_new(tl_client *client, uint8_t level, uint16_t blocks, uint8_t sources, uint8_t width,
                        uint8_t profile);

/* Asks for an operation. What the client hands out waits to be sent. An Acquire goes out after the beats that
   wait on channel C already: on the link a block is held until the answer to its Probe is sent, while
   the client has given it up. */
tl_answer tl_client_ask(tl_client *client, const tl_operation *operation, tl_outcome *outcome);

/* Offers a beat of channel B or D. Where it breaks a rule the answer is TL_BROKEN with that rule, and
   the link is closed. */
tl_answer tl_client_offer(tl_client *client, const tl_beat *beat, tl_reception *reception);

/* Tells by 1 that the beat would have to wait, else 0. */
tl_answer tl_client_stalls(tl_client *client, const tl_beat *beat, uint8_t *stalled);

/* Shows the next beat to send on a channel (enum tl_channel): TL_NOTHING where none waits. */
tl_answer tl_client_next(tl_client *client, uint8_t channel, tl_beat *beat);

/* The same, and the beat is sent now: the next call shows the one behind it. */
tl_answer tl_client_pop(tl_client *client, uint8_t channel, tl_beat *beat);

/* Tells what is held of a block (enum tl_perm). */
tl_answer tl_client_held(tl_client *client, uint16_t block, uint8_t *perm);

/* Shows the 64 bytes of the copy of a block: TL_NOTHING where nothing is held. */
tl_answer tl_client_copy(tl_client *client, uint16_t block, uint8_t (*bytes)[64]);

/* Tells by 1 that a beat was refused, else 0. */
tl_answer tl_client_closed(tl_client *client, uint8_t *closed);

/* Frees what the handle holds. It holds nothing then. */
void tl_client_free(tl_client *client);

/* The link of a manager's client: its level (enum tl_level), and how many sources it has, 1 to 8. */
typedef struct tl_link_config {
  uint8_t level;
  uint8_t sources;
} tl_link_config;

/* A handle, as that of a monitor. */
typedef struct tl_manager {
  void *at;
  uint8_t full;
} tl_manager;

/* Makes a manager of 1 to 16 links on 1 to 1,024 blocks, with 1 to 8 trackers, of beats of 4, 8 or 16
   bytes, under profile 1 or 2, behind a handle that holds nothing. Its memory is zero. */
tl_answer tl_manager_new(tl_manager *manager, const tl_link_config *links, size_t count, uint16_t blocks,
                         uint8_t trackers, uint8_t width, uint8_t profile);

/* The same of a manager whose clients have these liberties, the sum of some of TL_IDS, TL_DROPS, TL_REPORTS and
   TL_WRITER (enum tl_liberty); with TL_WRITER it grants a lone reader toT, as under profile 2. Any other is
   TL_BAD_ARGUMENT. There are as many sources of Probes as links: with TL_IDS each Probe has that of its link, and
   its ProbeAck has to have it too. */
tl_answer tl_manager_new_under(tl_manager *manager, const tl_link_config *links, size_t count, uint16_t blocks,
                               uint8_t trackers, uint8_t width, uint8_t liberties,
                               const uint8_t *probe_sources, size_t probe_source_count);

/* Offers a beat of channel A, C or E of a link, 0 to 15, and tells by 1 that it was taken, by 0 that it
   has to wait. Where it breaks a rule the answer is TL_BROKEN with that rule, and the link is closed. */
tl_answer tl_manager_offer(tl_manager *manager, uint8_t link, const tl_beat *beat, uint8_t *taken);

/* Tells by 1 that the beat would have to wait, else 0. */
tl_answer tl_manager_stalls(tl_manager *manager, uint8_t link, const tl_beat *beat, uint8_t *stalled);

/* Shows the next beat to send on a channel (enum tl_channel) of a link: TL_NOTHING where none waits. */
tl_answer tl_manager_next(tl_manager *manager, uint8_t link, uint8_t channel, tl_beat *beat);

/* The same, and the beat is sent now: the next call shows the one behind it. */
tl_answer tl_manager_pop(tl_manager *manager, uint8_t link, uint8_t channel, tl_beat *beat);

/* Tells by 1 that the link takes no beats, since one was refused or there is no such link, else 0. */
tl_answer tl_manager_closed(tl_manager *manager, uint8_t link, uint8_t *closed);

/* Frees what the handle holds. It holds nothing then. */
void tl_manager_free(tl_manager *manager);

/* Writes the name of a rule, and returns how many letters it has, at most 3. */
size_t tl_rule_name(uint8_t rule, uint8_t *into, size_t room);

/* Writes as much of the text of a code (enum tl_code) as there is room for, and returns how many bytes
   that is. 128 are enough for each. */
size_t tl_error_text(uint8_t code, uint8_t *into, size_t room);

/* Writes as much of the name of a situation as there is room for, as "report-TtoN", and returns how many letters that
   is: 0 if there is no such situation, or no memory. 32 are enough for each. */
size_t tl_situation_name(uint8_t situation, uint8_t *into, size_t room);

/* Writes as much of the sentence of a situation as there is room for, and returns how many bytes that is: 0 if there
   is no such situation. 128 are enough for each. */
size_t tl_situation_text(uint8_t situation, uint8_t *into, size_t room);

/* The same of the name of a bin, as "A-AcquireBlock-NtoB-64". 32 are enough for each. */
size_t tl_bin_name(uint8_t bin, uint8_t *into, size_t room);

/* The same of the sentence of a bin. 128 are enough for each. */
size_t tl_bin_text(uint8_t bin, uint8_t *into, size_t room);

#ifdef __cplusplus
}
#endif
#endif
