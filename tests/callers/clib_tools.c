/* Calls the whole tools of the C library. */
#define _POSIX_C_SOURCE 200809L /* for pthread_attr_setstack */

#include "clib.h"

#include <pthread.h>
#include <stdio.h>

#ifdef REFUSES_MEMORY
/* Built with --wrap=malloc and --wrap=realloc: the library's request of this number is refused. */
static unsigned requests, refused_request;

void *__real_malloc(size_t size);
void *__real_realloc(void *block, size_t size);
void *__wrap_malloc(size_t size);
void *__wrap_realloc(void *block, size_t size);

void *__wrap_malloc(size_t size) {
  return ++requests != refused_request ? __real_malloc(size) : NULL;
}

void *__wrap_realloc(void *block, size_t size) {
  return ++requests != refused_request ? __real_realloc(block, size) : NULL;
}
#endif

#define CONTACT_LINE "0 contact version=4 flags=00\n"
#define LINES                                                                                     \
  CONTACT_LINE                                                                                    \
  "6 sess-init keepalive=60 segment-mru=65536 transfer-mru=1048576 node=ipn:1.0 items=0\n"
#define SEGMENT_LINE "38 xfer-segment flags=03 id=0 items=0 length=34\n"
#define TRANSFER_LINE                                                                             \
  "transfer 0 start=0 written=34 length=34 good source=ipn:1.1 time=0 sequence=0 "                \
  "destination=ipn:2.1 payload=5\n"

#define NO TCPCLKIT_UNWANTED

static void lists(void) {
  struct tcpclkit_run run;
  uint8_t output[300], report[100];
  CHECK(tcpclkit_list(recording, sizeof recording, output, sizeof output, report, sizeof report,
                      &run) == TCPCLKIT_OK);
  CHECK(run.exit_status == 0 && run.report_length == 0);
  CHECK(run.output_length == strlen(LINES SEGMENT_LINE) && begins(output, LINES SEGMENT_LINE));
  CHECK(tcpclkit_list(recording, 70, output, sizeof output, report, sizeof report, &run) ==
        TCPCLKIT_OK);
  CHECK(run.exit_status == 3 && run.output_length == strlen(LINES) && begins(output, LINES));
  CHECK(run.report_length == 29 && begins(report, "tcpclkit: byte 38: truncated\n"));
  /* The lengths are those that would have been enough. */
  CHECK(tcpclkit_list(recording, 70, output, 9, report, sizeof report, &run) ==
        TCPCLKIT_TOO_SMALL);
  CHECK(run.output_length == strlen(LINES) && begins(output, "0 contact"));
  CHECK(run.report_length == 29 && run.exit_status == 3);
  CHECK(tcpclkit_list(recording, 70, output, sizeof output, report, 28, &run) ==
        TCPCLKIT_TOO_SMALL);
  CHECK(run.report_length == 29 && begins(report, "tcpclkit: byte 38: truncated"));
  CHECK(tcpclkit_list(recording, 70, output, sizeof output, report, 29, &run) == TCPCLKIT_OK);
  /* a text that is not wanted, and one that has no room */
  CHECK(tcpclkit_list(recording, 70, NULL, NO, NULL, NO, &run) == TCPCLKIT_OK);
  CHECK(run.output_length == strlen(LINES) && run.report_length == 29 && run.exit_status == 3);
  CHECK(tcpclkit_list(recording, 70, output, 0, NULL, NO, &run) == TCPCLKIT_TOO_SMALL);
  CHECK(tcpclkit_list(recording, 70, NULL, 0, NULL, NO, &run) == TCPCLKIT_TOO_SMALL);
  CHECK(tcpclkit_list(recording, 70, NULL, NO, NULL, 0, &run) == TCPCLKIT_TOO_SMALL);
  CHECK(tcpclkit_list(recording, 6, output, sizeof output, NULL, 0, &run) == TCPCLKIT_OK);
  CHECK(tcpclkit_list(recording, 70, NULL, NO, report, 28, &run) == TCPCLKIT_TOO_SMALL);
  CHECK(tcpclkit_list(recording, 70, NULL, NO, report, 29, &run) == TCPCLKIT_OK);
  CHECK(tcpclkit_list(recording, 6, output, strlen(CONTACT_LINE), NULL, NO, &run) == TCPCLKIT_OK);
  CHECK(run.output_length == strlen(CONTACT_LINE) && begins(output, CONTACT_LINE));
  CHECK(tcpclkit_list(recording, 6, output, strlen(CONTACT_LINE) - 1, NULL, NO, &run) ==
        TCPCLKIT_TOO_SMALL);
  CHECK(tcpclkit_list(recording, 6, output, NO, NULL, NO, &run) == TCPCLKIT_RANGE);
  CHECK(tcpclkit_list(NULL, 0, output, sizeof output, report, sizeof report, &run) ==
        TCPCLKIT_OK);
  CHECK(run.exit_status == 3 && begins(report, "tcpclkit: byte 0: truncated\n"));
  CHECK(tcpclkit_list(recording, 6, NULL, 1, NULL, 0, &run) == TCPCLKIT_NULL);
  CHECK(tcpclkit_list(recording, 6, output, 1, report, 1, NULL) == TCPCLKIT_NULL);
}

static void unpacks(void) {
  struct tcpclkit_unpack_options options;
  struct tcpclkit_run run;
  uint8_t output[sizeof recording], report[200];
  CHECK(tcpclkit_unpack_defaults(&options) == TCPCLKIT_OK);
  CHECK(tcpclkit_unpack(recording, sizeof recording, &options, output, sizeof output, report,
                        sizeof report, &run) == TCPCLKIT_OK);
  CHECK(run.exit_status == 0 && run.output_length == BUNDLE_LENGTH);
  CHECK(memcmp(output, bundle, BUNDLE_LENGTH) == 0);
  CHECK(run.report_length == strlen(TRANSFER_LINE) && begins(report, TRANSFER_LINE));
  options.payload = 1;
  CHECK(tcpclkit_unpack(recording, sizeof recording, &options, output, sizeof output, report,
                        sizeof report, &run) == TCPCLKIT_OK);
  CHECK(run.output_length == 5 && begins(output, "hello"));
  options.only_one = 1;
  options.transfer = 1;
  CHECK(tcpclkit_unpack(recording, sizeof recording, &options, output, sizeof output, report,
                        sizeof report, &run) == TCPCLKIT_OK);
  CHECK(run.output_length == 0);
  options.only_one = 0;
  CHECK(tcpclkit_unpack(recording, sizeof recording, &options, output, sizeof output, report,
                        sizeof report, &run) == TCPCLKIT_RANGE);
  options.only_one = 2;
  CHECK(tcpclkit_unpack(recording, sizeof recording, &options, output, sizeof output, report,
                        sizeof report, &run) == TCPCLKIT_RANGE);
}

/* The lines of the blocks of the bundle, as the first one of an input. */
#define BLOCK_LINES                                                                              \
  "0 primary at=1 length=21 flags=00 check=none destination=ipn:2.1 source=ipn:1.1 "             \
  "report-to=dtn:none time=0 sequence=0 lifetime=0\n"                                            \
  "0 block 1 at=22 length=11 type=1/payload flags=00 check=none data-at=28 data-length=5\n"      \
  "0 end length=34 good\n"

#define EARLY_LINE "tcpclkit: byte 6: segment before session initiation\n"

/* A segment without a SESS_INIT before it. */
static void goes_on(void) {
  struct tcpclkit_unpack_options options;
  struct tcpclkit_blocks_options blocks;
  struct tcpclkit_run run;
  uint8_t early[6 + 56], output[400], report[200];
  CHECK(tcpclkit_unpack_defaults(&options) == TCPCLKIT_OK);
  memcpy(early, recording, 6);
  memcpy(early + 6, recording + 38, 56);
  CHECK(tcpclkit_unpack(early, sizeof early, &options, output, sizeof output, report,
                        sizeof report, &run) == TCPCLKIT_OK);
  CHECK(run.exit_status == 3 && run.output_length == 0);
  CHECK(run.report_length == strlen(EARLY_LINE) && begins(report, EARLY_LINE));
  options.keep_going = 1;
  CHECK(tcpclkit_unpack(early, sizeof early, &options, output, sizeof output, report,
                        sizeof report, &run) == TCPCLKIT_OK);
  CHECK(run.exit_status == 1 && run.output_length == BUNDLE_LENGTH);
  CHECK(memcmp(output, bundle, BUNDLE_LENGTH) == 0);
  CHECK(run.report_length == strlen(EARLY_LINE TRANSFER_LINE));
  CHECK(begins(report, EARLY_LINE TRANSFER_LINE));
  CHECK(tcpclkit_blocks_defaults(&blocks) == TCPCLKIT_OK);
  CHECK(tcpclkit_blocks(early, sizeof early, &blocks, output, sizeof output, report,
                        sizeof report, &run) == TCPCLKIT_OK);
  CHECK(run.exit_status == 3 && run.output_length == 0);
  blocks.keep_going = 1;
  CHECK(tcpclkit_blocks(early, sizeof early, &blocks, output, sizeof output, report,
                        sizeof report, &run) == TCPCLKIT_OK);
  CHECK(run.exit_status == 1 && run.output_length == strlen(BLOCK_LINES));
  CHECK(begins(output, BLOCK_LINES) && run.report_length == strlen(EARLY_LINE));
}

static void shows_blocks(void) {
  struct tcpclkit_blocks_options usual, options;
  struct tcpclkit_run run;
  uint8_t output[400], report[200];
  CHECK(tcpclkit_blocks_defaults(&usual) == TCPCLKIT_OK);
  CHECK(tcpclkit_blocks(recording, sizeof recording, &usual, output, sizeof output, report,
                        sizeof report, &run) == TCPCLKIT_OK);
  CHECK(run.exit_status == 0 && run.report_length == 0);
  CHECK(run.output_length == strlen(BLOCK_LINES) && begins(output, BLOCK_LINES));
  options = usual;
  options.only_one = 1;
  options.transfer = 1;
  CHECK(tcpclkit_blocks(recording, sizeof recording, &options, output, sizeof output, report,
                        sizeof report, &run) == TCPCLKIT_OK);
  CHECK(run.exit_status == 0 && run.output_length == 0);
  options = usual;
  options.bundles = 1;
  CHECK(tcpclkit_blocks(bundle, BUNDLE_LENGTH, &options, output, sizeof output, report,
                        sizeof report, &run) == TCPCLKIT_OK);
  CHECK(run.exit_status == 0 && run.report_length == 0);
  CHECK(run.output_length == strlen(BLOCK_LINES) && begins(output, BLOCK_LINES));
  CHECK(tcpclkit_blocks(recording, sizeof recording, &options, output, sizeof output, report,
                        sizeof report, &run) == TCPCLKIT_OK);
  CHECK(run.exit_status == 3 && run.output_length == 0);
  CHECK(begins(report, "tcpclkit: bundle 0 byte 0: B3 not a bundle\n"));
}

/* The rules that the bundle breaks, in a transfer whose START is at 38, and in an input. */
#define RULE_LINES "38 must primary-check transfer=0\n38 must age transfer=0 blocks=0\n"
#define BUNDLE_MUST_LINE "0 must age bundle=0 blocks=0\n"
#define BUNDLE_RULE_LINES "0 should primary-check bundle=0\n" BUNDLE_MUST_LINE

static void judges_rules(void) {
  struct tcpclkit_check_options usual, options;
  struct tcpclkit_run run;
  uint8_t output[400], report[200];
  const char *lines = "38 must peer-segment length=34 limit=33\n" RULE_LINES;
  CHECK(tcpclkit_check_defaults(&usual) == TCPCLKIT_OK);
  CHECK(tcpclkit_check(recording, sizeof recording, &usual, output, sizeof output, report,
                       sizeof report, &run) == TCPCLKIT_OK);
  CHECK(run.exit_status == 1 && run.report_length == 0);
  CHECK(run.output_length == strlen(RULE_LINES) && begins(output, RULE_LINES));
  options = usual;
  options.has_peer_segment = 1;
  options.peer_segment = 33;
  CHECK(tcpclkit_check(recording, sizeof recording, &options, output, sizeof output, report,
                       sizeof report, &run) == TCPCLKIT_OK);
  CHECK(run.output_length == strlen(lines) && begins(output, lines));
  /* A limit that is not set has to be 0. */
  options.has_peer_segment = 0;
  CHECK(tcpclkit_check(recording, sizeof recording, &options, output, sizeof output, report,
                       sizeof report, &run) == TCPCLKIT_RANGE);
  options.peer_segment = 0;
  options.peer_transfer = 34;
  CHECK(tcpclkit_check(recording, sizeof recording, &options, output, sizeof output, report,
                       sizeof report, &run) == TCPCLKIT_RANGE);
  options.has_peer_transfer = 1;
  options.peer_transfer = 34;
  CHECK(tcpclkit_check(recording, sizeof recording, &options, output, sizeof output, report,
                       sizeof report, &run) == TCPCLKIT_OK);
  CHECK(run.output_length == strlen(RULE_LINES) && begins(output, RULE_LINES));
  lines = "38 must peer-transfer length=34 limit=0\n" RULE_LINES;
  options.peer_transfer = 0;
  CHECK(tcpclkit_check(recording, sizeof recording, &options, output, sizeof output, report,
                       sizeof report, &run) == TCPCLKIT_OK);
  CHECK(run.output_length == strlen(lines) && begins(output, lines));
  CHECK(tcpclkit_check(recording, 70, &usual, output, sizeof output, report, sizeof report,
                       &run) == TCPCLKIT_OK);
  CHECK(run.exit_status == 3 && run.output_length == 0);
  CHECK(run.report_length == 29 && begins(report, "tcpclkit: byte 38: truncated\n"));
}

/* A KEEPALIVE without a SESS_INIT before it, which only a rule of level `should` is about. */
static void judges_rules_of_level_must(void) {
  static const uint8_t early[] = {0x64, 0x74, 0x6e, 0x21, 0x04, 0x00, 0x04};
  static const char line[] = "6 should before-session type=04\n";
  struct tcpclkit_check_options options;
  struct tcpclkit_run run;
  uint8_t output[400], report[200];
  CHECK(tcpclkit_check_defaults(&options) == TCPCLKIT_OK);
  CHECK(tcpclkit_check(early, sizeof early, &options, output, sizeof output, report,
                       sizeof report, &run) == TCPCLKIT_OK);
  CHECK(run.exit_status == 1 && run.output_length == strlen(line) && begins(output, line));
  options.must = 1;
  CHECK(tcpclkit_check(early, sizeof early, &options, output, sizeof output, report,
                       sizeof report, &run) == TCPCLKIT_OK);
  CHECK(run.exit_status == 0 && run.output_length == 0 && run.report_length == 0);
}

static void judges_rules_of_bundles(void) {
  struct tcpclkit_check_options options;
  struct tcpclkit_run run;
  uint8_t output[400], report[200];
  CHECK(tcpclkit_check_defaults(&options) == TCPCLKIT_OK);
  options.bundles = 1;
  CHECK(tcpclkit_check(bundle, BUNDLE_LENGTH, &options, output, sizeof output, report,
                       sizeof report, &run) == TCPCLKIT_OK);
  CHECK(run.exit_status == 1 && run.report_length == 0);
  CHECK(run.output_length == strlen(BUNDLE_RULE_LINES) && begins(output, BUNDLE_RULE_LINES));
  options.must = 1;
  CHECK(tcpclkit_check(bundle, BUNDLE_LENGTH, &options, output, sizeof output, report,
                       sizeof report, &run) == TCPCLKIT_OK);
  CHECK(run.output_length == strlen(BUNDLE_MUST_LINE) && begins(output, BUNDLE_MUST_LINE));
  CHECK(tcpclkit_check(bundle, 0, &options, output, sizeof output, report, sizeof report,
                       &run) == TCPCLKIT_OK);
  CHECK(run.exit_status == 0 && run.output_length == 0 && run.report_length == 0);
  CHECK(tcpclkit_check(recording, sizeof recording, &options, output, sizeof output, report,
                       sizeof report, &run) == TCPCLKIT_OK);
  CHECK(run.exit_status == 3 && run.output_length == 0);
  CHECK(begins(report, "tcpclkit: bundle 0 byte 0: B3 not a bundle\n"));
}

static uint32_t pack(const struct tcpclkit_pack_options *options, size_t node_length,
                     uint8_t *output, size_t room, struct tcpclkit_run *run) {
  static const uint8_t node[TCPCLKIT_NODE_ID_LIMIT + 1] = "ipn:1.0";
  static uint8_t report[200];
  return tcpclkit_pack(bundle, BUNDLE_LENGTH, options, node, node_length, output, room, report,
                       sizeof report, run);
}

static void packs(void) {
  struct tcpclkit_pack_options usual, options;
  struct tcpclkit_run run;
  uint8_t output[sizeof recording + 3];
  CHECK(tcpclkit_pack_defaults(&usual) == TCPCLKIT_OK);
  options = usual;
  CHECK(pack(&options, 7, output, sizeof output, &run) == TCPCLKIT_OK);
  CHECK(run.exit_status == 0 && run.output_length == sizeof recording);
  CHECK(memcmp(output, recording, sizeof recording) == 0);
  CHECK(pack(&options, 7, output, 50, &run) == TCPCLKIT_TOO_SMALL);
  CHECK(run.output_length == sizeof recording && memcmp(output, recording, 50) == 0);
  CHECK(pack(&options, 7, output, sizeof recording, &run) == TCPCLKIT_OK);
  CHECK(pack(&options, 7, output, sizeof recording - 1, &run) == TCPCLKIT_TOO_SMALL);
  options.send_term = 1;
  CHECK(pack(&options, 7, output, sizeof output, &run) == TCPCLKIT_OK);
  CHECK(run.output_length == sizeof recording + 3);
  options.send_term = 2;
  CHECK(pack(&options, 7, output, sizeof output, &run) == TCPCLKIT_RANGE);
  options = usual;
  options.peer_segment = 0;
  CHECK(pack(&options, 7, output, sizeof output, &run) == TCPCLKIT_RANGE);
  options = usual;
  options.keepalive = 65536;
  CHECK(pack(&options, 7, output, sizeof output, &run) == TCPCLKIT_RANGE);
  options = usual;
  options.announce = 1048577;
  CHECK(pack(&options, 7, output, sizeof output, &run) == TCPCLKIT_RANGE);
  CHECK(pack(&usual, TCPCLKIT_NODE_ID_LIMIT, NULL, NO, &run) == TCPCLKIT_OK);
  CHECK(run.output_length == sizeof recording - 7 + TCPCLKIT_NODE_ID_LIMIT);
  CHECK(pack(&usual, TCPCLKIT_NODE_ID_LIMIT + 1, NULL, NO, &run) == TCPCLKIT_RANGE);
  CHECK(pack(NULL, 7, output, sizeof output, &run) == TCPCLKIT_NULL);
}

/* What a run of a tool is lent. */
struct lent {
  uint8_t output[400];
  uint8_t report[200];
  struct tcpclkit_run run;
};

enum tool { LIST, UNPACK, PACK, MORE, BLOCKS, CHECKS, TOOLS };

/* Whether a tool packs bundles, for which it takes memory. */
static int packs_bundles(int tool) { return tool == PACK || tool == MORE; }

/* What a tool reads: bundles to pack, and else a recording. Less than all of it is a fault. */
static const uint8_t *input_of(int tool, size_t *length) {
  *length = packs_bundles(tool) ? BUNDLE_LENGTH : sizeof recording;
  return packs_bundles(tool) ? bundle : recording;
}

/* Runs a tool on the first bytes of its input, without `less` of them. */
static uint32_t run_into(int tool, size_t less, uint8_t *output, size_t output_room,
                         uint8_t *report, size_t report_room, struct tcpclkit_run *run) {
  struct tcpclkit_pack_options usual;
  struct tcpclkit_unpack_options all;
  struct tcpclkit_blocks_options blocks;
  struct tcpclkit_check_options check;
  struct tcpclkit_more_options more;
  size_t length;
  const uint8_t *input = input_of(tool, &length);
  tcpclkit_more_defaults(&more);
  tcpclkit_pack_defaults(&usual);
  tcpclkit_unpack_defaults(&all);
  tcpclkit_blocks_defaults(&blocks);
  tcpclkit_check_defaults(&check);
  length -= less;
  if (tool == LIST)
    return tcpclkit_list(input, length, output, output_room, report, report_room, run);
  if (tool == UNPACK)
    return tcpclkit_unpack(input, length, &all, output, output_room, report, report_room, run);
  if (tool == BLOCKS)
    return tcpclkit_blocks(input, length, &blocks, output, output_room, report, report_room, run);
  if (tool == CHECKS)
    return tcpclkit_check(input, length, &check, output, output_room, report, report_room, run);
  if (tool == MORE)
    return tcpclkit_pack_more(input, length, &more, output, output_room, report, report_room, run);
  return tcpclkit_pack(input, length, &usual, (const uint8_t *)"ipn:1.0", 7, output, output_room,
                       report, report_room, run);
}

/* The same of the whole input, into slices that were marked. */
static uint32_t run_tool(int tool, struct lent *it, size_t output_room, size_t report_room) {
  memset(it, MARK, sizeof *it);
  return run_into(tool, 0, it->output, output_room, it->report, report_room, &it->run);
}

/* A text that is not wanted needs no room. A null pointer with a room of 0 is an empty slice, into
 * which only a text without bytes fits. Any other room of a null pointer is refused, and so is a
 * room of TCPCLKIT_UNWANTED for a slice. */
static void no_slices(int tool) {
  size_t less;
  for (less = 0; less < 2; less++) { /* a run without a fault, and one with a fault */
    struct lent whole, it;
    uint8_t *to = it.output, *report = it.report;
    const size_t size = sizeof it.output, rest = sizeof it.report;
    uint32_t output_status, report_status;
    memset(&whole, MARK, sizeof whole);
    memset(&it, MARK, sizeof it);
    CHECK(run_into(tool, less, whole.output, sizeof whole.output, whole.report,
                   sizeof whole.report, &whole.run) == TCPCLKIT_OK);
    /* The status of the call says nothing of what the run found. */
    CHECK(less == 0 ? whole.run.exit_status < 2 : whole.run.exit_status == 3);
    CHECK(less == 0 || whole.run.report_length > 0);
    output_status = whole.run.output_length > 0 ? TCPCLKIT_TOO_SMALL : TCPCLKIT_OK;
    report_status = whole.run.report_length > 0 ? TCPCLKIT_TOO_SMALL : TCPCLKIT_OK;
#define RUNS(output, output_room, report, report_room, status)                                  \
  do {                                                                                          \
    memset(&it, MARK, sizeof it);                                                               \
    CHECK(run_into(tool, less, output, output_room, report, report_room, &it.run) == (status)); \
    CHECK(memcmp(&it.run, &whole.run, sizeof it.run) == 0);                                     \
  } while (0)
    RUNS(NULL, NO, NULL, NO, TCPCLKIT_OK);
    RUNS(NULL, 0, NULL, NO, output_status);
    RUNS(NULL, NO, NULL, 0, report_status);
    RUNS(to, 0, NULL, NO, output_status);
    CHECK(IS_MARKED(it.output));
    RUNS(NULL, NO, report, 0, report_status);
    CHECK(IS_MARKED(it.report));
    RUNS(NULL, 0, report, rest, output_status);
    CHECK(memcmp(it.report, whole.report, sizeof it.report) == 0 && IS_MARKED(it.output));
    RUNS(to, size, NULL, 0, report_status);
    CHECK(memcmp(it.output, whole.output, sizeof it.output) == 0 && IS_MARKED(it.report));
    RUNS(to, size, NULL, NO, TCPCLKIT_OK);
    CHECK(memcmp(it.output, whole.output, sizeof it.output) == 0 && IS_MARKED(it.report));
    RUNS(NULL, NO, report, rest, TCPCLKIT_OK);
    CHECK(memcmp(it.report, whole.report, sizeof it.report) == 0 && IS_MARKED(it.output));
#undef RUNS
    memset(&it, MARK, sizeof it);
    LEAVES(run_into(tool, less, NULL, 1, report, rest, &it.run), TCPCLKIT_NULL, it);
    LEAVES(run_into(tool, less, to, size, NULL, 1, &it.run), TCPCLKIT_NULL, it);
    LEAVES(run_into(tool, less, NULL, NO - 1, report, rest, &it.run), TCPCLKIT_RANGE, it);
    LEAVES(run_into(tool, less, to, NO, report, rest, &it.run), TCPCLKIT_RANGE, it);
    LEAVES(run_into(tool, less, to, size, report, NO, &it.run), TCPCLKIT_RANGE, it);
    LEAVES(run_into(tool, less, to, size, report, rest, NULL), TCPCLKIT_NULL, it);
  }
}

/* A tool with these rooms: it succeeds exactly if its texts fit, and says how long they are. */
static void room(int tool, const struct lent *whole, size_t output, size_t report) {
  size_t output_written = (size_t)whole->run.output_length;
  size_t report_written = (size_t)whole->run.report_length;
  int fits = output >= output_written && report >= report_written;
  struct lent it;
  CHECK(run_tool(tool, &it, output, report) == (fits ? TCPCLKIT_OK : TCPCLKIT_TOO_SMALL));
  CHECK(memcmp(&it.run, &whole->run, sizeof it.run) == 0);
  if (output_written > output)
    output_written = output;
  if (report_written > report)
    report_written = report;
  CHECK(memcmp(it.output, whole->output, output_written) == 0);
  CHECK(memcmp(it.report, whole->report, report_written) == 0);
  CHECK(is_marked(it.output + output_written, sizeof it.output - output_written));
  CHECK(is_marked(it.report + report_written, sizeof it.report - report_written));
}

static void rooms(int tool) {
  struct lent whole;
  size_t output, report, at;
  CHECK(run_tool(tool, &whole, sizeof whole.output, sizeof whole.report) == TCPCLKIT_OK);
  output = (size_t)whole.run.output_length;
  report = (size_t)whole.run.report_length;
  for (at = 0; at <= output + 1; at++)
    room(tool, &whole, at, report);
  for (at = 0; at <= report + 1; at++)
    room(tool, &whole, output, at);
  room(tool, &whole, 0, 0);
  room(tool, &whole, output - 1, report > 0 ? report - 1 : 0);
}

/* Options of `check` that are out of their ranges, or go with no other, leave all as it was. */
static void unwritten_rules(void) {
  struct tcpclkit_check_options usual, limit, segment, transfer;
  struct tcpclkit_check_options above[4], unmade[3];
  struct lent it;
  uint8_t *to = it.output, *report = it.report;
  size_t at;
  CHECK(tcpclkit_check_defaults(NULL) == TCPCLKIT_NULL);
  tcpclkit_check_defaults(&usual);
  limit = segment = transfer = usual;
  limit.has_peer_segment = limit.peer_segment = 1;
  segment.bundles = segment.has_peer_segment = segment.peer_segment = 1;
  transfer.bundles = transfer.has_peer_transfer = 1;
  above[0] = above[2] = above[3] = usual;
  above[1] = limit;
  above[0].must = above[1].has_peer_segment = above[2].has_peer_transfer = above[3].bundles = 2;
  unmade[0] = unmade[1] = unmade[2] = usual;
  unmade[0].size = 0;
  unmade[1].size = sizeof usual - 4;
  unmade[2].size = sizeof usual + 8;
  memset(&it, MARK, sizeof it);
  for (at = 0; at < 4; at++)
    LEAVES(tcpclkit_check(recording, sizeof recording, &above[at], to, 9, report, 9, &it.run),
           TCPCLKIT_RANGE, it);
  for (at = 0; at < 3; at++)
    LEAVES(tcpclkit_check(recording, sizeof recording, &unmade[at], to, 9, report, 9, &it.run),
           TCPCLKIT_RANGE, it);
  LEAVES(tcpclkit_check(bundle, 9, &segment, to, 9, report, 9, &it.run), TCPCLKIT_RANGE, it);
  LEAVES(tcpclkit_check(bundle, 9, &transfer, to, 9, report, 9, &it.run), TCPCLKIT_RANGE, it);
  LEAVES(tcpclkit_check(recording, 9, NULL, to, 9, report, 9, &it.run), TCPCLKIT_NULL, it);
  LEAVES(tcpclkit_check(NULL, 1, &usual, to, 9, report, 9, &it.run), TCPCLKIT_NULL, it);
  LEAVES(tcpclkit_check(recording, 9, &usual, to, 9, report, 9, NULL), TCPCLKIT_NULL, it);
  CHECK(tcpclkit_check(recording, 9, &limit, to, 9, report, 9, &it.run) == TCPCLKIT_TOO_SMALL);
}

static void unwritten_runs(void) {
  struct tcpclkit_unpack_options all, one, payload, going_on, unmade, longer;
  struct tcpclkit_blocks_options blocks, one_block, on, both, also_one, also_on, unmade_blocks;
  struct tcpclkit_pack_options pack;
  const uint8_t *node = (const uint8_t *)"ipn:1.0";
  const size_t size = sizeof recording;
  struct lent it;
  uint8_t *to = it.output, *report = it.report;
  tcpclkit_pack_defaults(&pack);
  tcpclkit_unpack_defaults(&all);
  tcpclkit_blocks_defaults(&blocks);
  one = payload = going_on = unmade = longer = all;
  one_block = on = both = also_one = also_on = unmade_blocks = blocks;
  one_block.only_one = on.keep_going = both.bundles = 2;
  also_one.bundles = also_one.only_one = also_on.bundles = also_on.keep_going = 1;
  unmade_blocks.size = sizeof blocks - 4;
  pack.peer_segment = 0;
  one.only_one = 2;
  payload.payload = 2;
  going_on.keep_going = 2;
  unmade.size = 0;
  longer.size = sizeof longer + 8;
  memset(&it, MARK, sizeof it);
  CHECK(tcpclkit_unpack_defaults(NULL) == TCPCLKIT_NULL);
  CHECK(tcpclkit_blocks_defaults(NULL) == TCPCLKIT_NULL);
  CHECK(tcpclkit_pack_defaults(NULL) == TCPCLKIT_NULL);
  LEAVES(tcpclkit_unpack(recording, size, &unmade, to, 9, report, 9, &it.run), TCPCLKIT_RANGE, it);
  LEAVES(tcpclkit_unpack(recording, size, &longer, to, 9, report, 9, &it.run), TCPCLKIT_RANGE, it);
  LEAVES(tcpclkit_unpack(recording, size, &one, to, 9, report, 9, &it.run), TCPCLKIT_RANGE, it);
  LEAVES(tcpclkit_unpack(recording, size, &payload, to, 9, report, 9, &it.run), TCPCLKIT_RANGE,
         it);
  LEAVES(tcpclkit_unpack(recording, size, &going_on, to, 9, report, 9, &it.run), TCPCLKIT_RANGE,
         it);
  LEAVES(tcpclkit_unpack(recording, size, NULL, to, 9, report, 9, &it.run), TCPCLKIT_NULL, it);
  LEAVES(tcpclkit_unpack(NULL, 1, &all, to, 9, report, 9, &it.run), TCPCLKIT_NULL, it);
  LEAVES(tcpclkit_blocks(recording, size, &one_block, to, 9, report, 9, &it.run), TCPCLKIT_RANGE,
         it);
  LEAVES(tcpclkit_blocks(recording, size, &on, to, 9, report, 9, &it.run), TCPCLKIT_RANGE, it);
  LEAVES(tcpclkit_blocks(recording, size, &both, to, 9, report, 9, &it.run), TCPCLKIT_RANGE, it);
  LEAVES(tcpclkit_blocks(bundle, 9, &also_one, to, 9, report, 9, &it.run), TCPCLKIT_RANGE, it);
  LEAVES(tcpclkit_blocks(bundle, 9, &also_on, to, 9, report, 9, &it.run), TCPCLKIT_RANGE, it);
  LEAVES(tcpclkit_blocks(bundle, 9, &unmade_blocks, to, 9, report, 9, &it.run), TCPCLKIT_RANGE,
         it);
  LEAVES(tcpclkit_blocks(recording, size, NULL, to, 9, report, 9, &it.run), TCPCLKIT_NULL, it);
  LEAVES(tcpclkit_blocks(NULL, 1, &blocks, to, 9, report, 9, &it.run), TCPCLKIT_NULL, it);
  LEAVES(tcpclkit_pack(bundle, 9, &pack, node, 7, to, 9, report, 9, &it.run), TCPCLKIT_RANGE, it);
  LEAVES(tcpclkit_pack(bundle, 9, &pack, NULL, 7, to, 9, report, 9, &it.run), TCPCLKIT_NULL, it);
  LEAVES(tcpclkit_pack(bundle, 9, NULL, node, 7, to, 9, report, 9, &it.run), TCPCLKIT_NULL, it);
  LEAVES(tcpclkit_list(NULL, 1, to, 9, report, 9, &it.run), TCPCLKIT_NULL, it);
  LEAVES(tcpclkit_list(recording, size, NULL, 9, report, 9, &it.run), TCPCLKIT_NULL, it);
  LEAVES(tcpclkit_list(recording, size, to, 9, NULL, 9, &it.run), TCPCLKIT_NULL, it);
  LEAVES(tcpclkit_list(recording, size, to, 9, report, 9, NULL), TCPCLKIT_NULL, it);
  LEAVES(tcpclkit_list(recording, SIZE_MAX, to, 9, report, 9, &it.run), TCPCLKIT_RANGE, it);
}

/* The numbers of an option that is off have to be 0, whatever the others are, and a switch is 0 or
 * 1. Each option of `unpack`, `blocks` and `check` is 0, 1 and 2 in turn, and each pair of two. */
static int may_be(int tool, const uint64_t *numbers) {
  if (tool == CHECKS) /* must, has_peer_segment, it, has_peer_transfer, it, bundles */
    return numbers[0] <= 1 && numbers[1] <= 1 && numbers[3] <= 1 && numbers[5] <= 1 &&
           (numbers[1] || !numbers[2]) && (numbers[3] || !numbers[4]) &&
           !(numbers[5] && (numbers[1] || numbers[3]));
  /* only_one, transfer, payload or keep_going, keep_going or bundles */
  return numbers[0] <= 1 && numbers[2] <= 1 && numbers[3] <= 1 && (numbers[0] || !numbers[1]) &&
         !(tool == BLOCKS && numbers[3] && (numbers[0] || numbers[2]));
}

static uint32_t run_with(int tool, const uint64_t *numbers, struct lent *it) {
  const struct tcpclkit_unpack_options unpack = {sizeof unpack, numbers[0], numbers[1], numbers[2],
                                                 numbers[3]};
  const struct tcpclkit_blocks_options blocks = {sizeof blocks, numbers[0], numbers[1], numbers[2],
                                                 numbers[3]};
  const struct tcpclkit_check_options check = {sizeof check, numbers[0], numbers[1], numbers[2],
                                               numbers[3],   numbers[4], numbers[5]};
  if (tool == UNPACK)
    return tcpclkit_unpack(recording, sizeof recording, &unpack, it->output, sizeof it->output,
                           it->report, sizeof it->report, &it->run);
  if (tool == BLOCKS)
    return tcpclkit_blocks(recording, sizeof recording, &blocks, it->output, sizeof it->output,
                           it->report, sizeof it->report, &it->run);
  return tcpclkit_check(recording, sizeof recording, &check, it->output, sizeof it->output,
                        it->report, sizeof it->report, &it->run);
}

static void switches(void) {
  static const int tools[] = {UNPACK, BLOCKS, CHECKS};
  static const uint64_t values[] = {0, 1, 2, UINT64_MAX};
  size_t at, one, other, pair;
  for (at = 0; at < 3; at++)
    for (one = 0; one < 6; one++)
      for (other = 0; other < 6; other++)
        for (pair = 0; pair < 16; pair++) {
          uint64_t numbers[6] = {0, 0, 0, 0, 0, 0};
          struct lent it;
          numbers[one] = values[pair % 4];
          numbers[other] = values[pair / 4];
          memset(&it, MARK, sizeof it);
          if (may_be(tools[at], numbers))
            CHECK(run_with(tools[at], numbers, &it) == TCPCLKIT_OK);
          else
            LEAVES(run_with(tools[at], numbers, &it), TCPCLKIT_RANGE, it);
        }
}

/* What is called on a stack of its own. Its variables are static, so that they are not on it. */
static void no_call(void) {}

static void small_calls(void) {
  static struct tcpclkit_bundle info;
  static struct tcpclkit_contact contact;
  static struct tcpclkit_message message;
  static struct tcpclkit_item item;
  static struct tcpclkit_announced announced;
  static struct tcpclkit_order order;
  static struct tcpclkit_turn turn;
  static struct tcpclkit_scan scan;
  static struct tcpclkit_block block;
  static const struct tcpclkit_eid eid = {TCPCLKIT_EID_DTN, 0, 0, 0, TCPCLKIT_EID_LIMIT};
  /* a status report: received, for a reason, about a bundle of dtn:none */
  static const uint8_t report[] = {0x82, 0x01, 0x84, 0x84, 0x81, 0xf5, 0x81, 0xf4, 0x81, 0xf4,
                                   0x81, 0xf4, 0x00, 0x82, 0x01, 0x00, 0x82, 0x05, 0x06};
  static const struct tcpclkit_block primary = {1, 1, 21, 0, 0, 2, 0, 0, 0, 0};
  static const struct tcpclkit_block reporting = {2,  22, 27, 1, 1, 0, 0, 28, sizeof report,
                                                  19};
  static uint8_t name[TCPCLKIT_EID_LIMIT], reports[TCPCLKIT_EID_LIMIT], text[4100];
  static uint64_t written;
  tcpclkit_judge_bundle(bundle, sizeof bundle, &info.verdict);
  tcpclkit_describe_bundle(reported, sizeof reported, text, sizeof text, name, sizeof name,
                           reports, sizeof reports, &info);
  tcpclkit_read_contact(recording, sizeof recording, &contact);
  tcpclkit_read_message(recording, sizeof recording, 6, &message);
  tcpclkit_read_message(announcing, sizeof announcing, 0, &message);
  tcpclkit_read_item(announcing, sizeof announcing, &message, 14, &item);
  tcpclkit_read_announced(announcing, sizeof announcing, &message, &announced);
  tcpclkit_start_order(&order);
  tcpclkit_judge_message(&order, &message, &turn);
  tcpclkit_take_message(&order, &message, &turn);
  tcpclkit_start_scan(&scan);
  tcpclkit_next_block(&scan, reported, sizeof reported, &written, &block);
  tcpclkit_feed_scan(&scan, reported + written, sizeof reported - (size_t)written, &written);
  tcpclkit_judge_block(&scan, &block);
  tcpclkit_judge_scan(&scan, &info.verdict);
  tcpclkit_end_scan(&scan, sizeof reported, &info.verdict);
  tcpclkit_describe_scan(&scan, text, sizeof text, name, sizeof name, reports, sizeof reports,
                         &info);
  tcpclkit_write_fault_text(TCPCLKIT_BUNDLE_CUT, 0, text, sizeof text, &written);
  tcpclkit_read_block_data(&primary, &reporting, report, sizeof report, text, sizeof text,
                           &written);
  tcpclkit_write_eid_text(&eid, name, sizeof name, text, sizeof text, &written);
  call_texts();
  call_message_writers();
  call_bundle_writers();
}

static void tool_calls(void) {
  static struct lent it;
  int tool;
  for (tool = 0; tool < TOOLS; tool++)
    run_tool(tool, &it, sizeof it.output, sizeof it.report);
}

static void *called(void *calls) {
  (*(void (*const *)(void))calls)();
  return NULL;
}

/* How much of a stack the calls take, with what a thread takes. */
static size_t stack_of(void (*calls)(void)) {
  static uint8_t stack[1 << 20];
  size_t unused = 0;
  pthread_attr_t attributes;
  pthread_t thread;
  memset(stack, MARK, sizeof stack);
  CHECK(pthread_attr_init(&attributes) == 0);
  CHECK(pthread_attr_setstack(&attributes, stack, sizeof stack) == 0);
  CHECK(pthread_create(&thread, &attributes, called, &calls) == 0);
  CHECK(pthread_join(thread, NULL) == 0);
  CHECK(pthread_attr_destroy(&attributes) == 0);
  while (unused < sizeof stack && stack[unused] == MARK)
    unused++;
  return sizeof stack - unused;
}

/* The room that the header says is enough, on x86-64. */
static void stacks(void) {
  size_t thread = stack_of(no_call), small = stack_of(small_calls), tool = stack_of(tool_calls);
  printf("stack: %zu bytes, and %zu bytes for a tool\n", small - thread, tool - thread);
  CHECK(small - thread <= 20480);
  CHECK(tool - thread <= 122880);
}

#ifdef REFUSES_MEMORY
/* A tool that packs asks for one block, and the others for none. */
static void refusals(void) {
  static const struct tcpclkit_run zeros = {0, 0, 0};
  struct lent it;
  int tool;
  for (tool = 0; tool < TOOLS; tool++) {
    requests = 0;
    CHECK(run_tool(tool, &it, sizeof it.output, sizeof it.report) == TCPCLKIT_OK);
    CHECK(requests == (packs_bundles(tool) ? 1 : 0));
  }
  for (tool = PACK; tool <= MORE; tool++) {
    requests = 0;
    refused_request = 1;
    CHECK(run_tool(tool, &it, sizeof it.output, sizeof it.report) == TCPCLKIT_MEMORY);
    CHECK(memcmp(&it.run, &zeros, sizeof zeros) == 0);
    CHECK(IS_MARKED(it.output) && IS_MARKED(it.report));
    refused_request = 0;
  }
}
#endif

/* Options as a caller of the raw functions has them: fewer or more numbers than are known. */
static void numbers_of_options(void) {
  static const uint64_t more[] = {0, 0, 0, 0, 0, 0}, unknown[] = {0, 0, 0, 0, 1};
  static const uint64_t pack[] = {60, 65536, 1048576, 65536, UINT64_MAX, 0, 0, 0, 7};
  const uint8_t *node = (const uint8_t *)"ipn:1.0";
  struct lent whole, it;
  size_t words;
  CHECK(run_tool(UNPACK, &whole, sizeof whole.output, sizeof whole.report) == TCPCLKIT_OK);
  for (words = 0; words <= 6; words++) {
    memset(&it, MARK, sizeof it);
    CHECK(tcpclkit_raw_unpack(recording, sizeof recording, more, words, 1, it.output,
                              sizeof it.output, 1, it.report, sizeof it.report, &it.run) ==
          TCPCLKIT_OK);
    CHECK(memcmp(&it, &whole, sizeof it) == 0);
  }
  CHECK(tcpclkit_raw_unpack(recording, sizeof recording, unknown, 5, 1, it.output,
                            sizeof it.output, 1, it.report, sizeof it.report, &it.run) ==
        TCPCLKIT_RANGE);
  CHECK(run_tool(BLOCKS, &whole, sizeof whole.output, sizeof whole.report) == TCPCLKIT_OK);
  for (words = 0; words <= 6; words++) {
    memset(&it, MARK, sizeof it);
    CHECK(tcpclkit_raw_blocks(recording, sizeof recording, more, words, 1, it.output,
                              sizeof it.output, 1, it.report, sizeof it.report, &it.run) ==
          TCPCLKIT_OK);
    CHECK(memcmp(&it, &whole, sizeof it) == 0);
  }
  CHECK(tcpclkit_raw_blocks(recording, sizeof recording, unknown, 5, 1, it.output,
                            sizeof it.output, 1, it.report, sizeof it.report, &it.run) ==
        TCPCLKIT_RANGE);
  CHECK(run_tool(PACK, &whole, sizeof whole.output, sizeof whole.report) == TCPCLKIT_OK);
  for (words = 0; words <= 9; words++) {
    memset(&it, MARK, sizeof it);
    CHECK(tcpclkit_raw_pack(bundle, BUNDLE_LENGTH, pack, words, node, 7, 1, it.output,
                            sizeof it.output, 1, it.report, sizeof it.report, &it.run) ==
          (words < 9 ? TCPCLKIT_OK : TCPCLKIT_RANGE));
    CHECK(words == 9 || memcmp(&it, &whole, sizeof it) == 0);
  }
}

static void numbers_of_check_options(void) {
  static const uint64_t more[] = {0, 0, 0, 0, 0, 0, 0, 0}, unknown[] = {0, 0, 0, 0, 0, 0, 1};
  struct lent whole, it;
  size_t words;
  CHECK(run_tool(CHECKS, &whole, sizeof whole.output, sizeof whole.report) == TCPCLKIT_OK);
  for (words = 0; words <= 8; words++) {
    memset(&it, MARK, sizeof it);
    CHECK(tcpclkit_raw_check(recording, sizeof recording, more, words, 1, it.output,
                             sizeof it.output, 1, it.report, sizeof it.report, &it.run) ==
          TCPCLKIT_OK);
    CHECK(memcmp(&it, &whole, sizeof it) == 0);
  }
  CHECK(tcpclkit_raw_check(recording, sizeof recording, unknown, 7, 1, it.output,
                           sizeof it.output, 1, it.report, sizeof it.report, &it.run) ==
        TCPCLKIT_RANGE);
}

void test_tools(int measures_stacks) {
  int tool;
  lists();
  unpacks();
  goes_on();
  shows_blocks();
  judges_rules();
  judges_rules_of_level_must();
  judges_rules_of_bundles();
  packs();
  for (tool = 0; tool < TOOLS; tool++) {
    rooms(tool);
    no_slices(tool);
  }
  unwritten_runs();
  switches();
  unwritten_rules();
  numbers_of_options();
  numbers_of_check_options();
  if (measures_stacks)
    stacks();
#ifdef REFUSES_MEMORY
  refusals();
#endif
}
