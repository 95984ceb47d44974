/* Calls tcpclkit_pack_more, and compares it with tcpclkit_pack. */
#include "clib.h"

/* Three bundles, one after another. */
static uint8_t input[BUNDLE_LENGTH + sizeof reported + sizeof fragment];

static void make_input(void) {
  memcpy(input, bundle, BUNDLE_LENGTH);
  memcpy(input + BUNDLE_LENGTH, reported, sizeof reported);
  memcpy(input + BUNDLE_LENGTH + sizeof reported, fragment, sizeof fragment);
}

struct texts {
  uint8_t output[700];
  uint8_t report[600];
  struct tcpclkit_run run;
};

/* Packs the first bytes of the input into an open session. */
static uint32_t pack_more(const struct tcpclkit_more_options *options, size_t length,
                          struct texts *it) {
  memset(it, MARK, sizeof *it);
  return tcpclkit_pack_more(input, length, options, it->output, sizeof it->output, it->report,
                            sizeof it->report, &it->run);
}

/* Packs the same into a session of its own. */
static uint32_t pack(const struct tcpclkit_more_options *options, uint64_t send_term,
                     size_t length, struct texts *it) {
  struct tcpclkit_pack_options whole;
  tcpclkit_pack_defaults(&whole);
  whole.peer_segment = options->peer_segment;
  whole.peer_transfer = options->peer_transfer;
  whole.announce = options->announce;
  whole.send_term = send_term;
  memset(it, MARK, sizeof *it);
  return tcpclkit_pack(input, length, &whole, (const uint8_t *)"ipn:1.0", 7, it->output,
                       sizeof it->output, it->report, sizeof it->report, &it->run);
}

/* The contact header and the SESS_INIT, whose node ID has 7 bytes and which has no items. */
enum { PRELUDE = TCPCLKIT_CONTACT_LENGTH + TCPCLKIT_SESS_INIT_LENGTH + 7 };

/* Between the prelude and the SESS_TERM, tcpclkit_pack writes what this call writes. */
static void is_between(const struct tcpclkit_more_options *options, size_t length) {
  struct texts more, whole, ended;
  const size_t size = sizeof more.output;
  size_t written, end;
  CHECK(pack_more(options, length, &more) == TCPCLKIT_OK);
  CHECK(pack(options, 0, length, &whole) == TCPCLKIT_OK);
  CHECK(pack(options, 1, length, &ended) == TCPCLKIT_OK);
  written = (size_t)more.run.output_length;
  CHECK(more.run.exit_status == whole.run.exit_status);
  CHECK(whole.run.output_length == PRELUDE + written);
  CHECK(memcmp(whole.output, recording, PRELUDE) == 0);
  CHECK(memcmp(whole.output + PRELUDE, more.output, written) == 0);
  CHECK(is_marked(more.output + written, size - written));
  CHECK(more.run.report_length == whole.run.report_length);
  CHECK(memcmp(more.report, whole.report, sizeof more.report) == 0);
  /* After a fault there is no SESS_TERM. */
  end = more.run.exit_status == 0 ? TCPCLKIT_SESS_TERM_LENGTH : 0;
  CHECK(ended.run.output_length == PRELUDE + written + end);
  CHECK(memcmp(ended.output, whole.output, PRELUDE + written) == 0);
  CHECK(end == 0 || ended.output[PRELUDE + written] == TCPCLKIT_SESS_TERM);
}

/* Segments and limits of each kind, and inputs that end everywhere. */
static void as_pack_writes(void) {
  static const uint64_t segments[] = {7, 17, 34, 65536}, transfers[] = {UINT64_MAX, 35},
                        announced[] = {0, 34, 1048576};
  struct tcpclkit_more_options options;
  size_t segment, transfer, announce, length;
  tcpclkit_more_defaults(&options);
  for (segment = 0; segment < 4; segment++)
    for (transfer = 0; transfer < 2; transfer++)
      for (announce = 0; announce < 3; announce++)
        for (length = 0; length <= sizeof input; length++) {
          options.peer_segment = segments[segment];
          options.peer_transfer = transfers[transfer];
          options.announce = announced[announce];
          is_between(&options, length);
        }
}

/* The IDs of the segments are moved, and nothing else. The lines begin with the same IDs. */
static void is_moved(const struct tcpclkit_more_options *usual, uint64_t first, size_t length) {
  struct tcpclkit_more_options options = *usual;
  struct texts zero, more;
  struct tcpclkit_message here, there;
  uint64_t offset = 0;
  options.first = 0;
  CHECK(pack_more(&options, length, &zero) == TCPCLKIT_OK);
  options.first = first;
  CHECK(pack_more(&options, length, &more) == TCPCLKIT_OK);
  CHECK(more.run.output_length == zero.run.output_length);
  CHECK(more.run.exit_status == zero.run.exit_status);
  while (tcpclkit_read_message(more.output, (size_t)more.run.output_length, offset, &there) ==
         TCPCLKIT_OK) {
    CHECK(tcpclkit_read_message(zero.output, (size_t)zero.run.output_length, offset, &here) ==
          TCPCLKIT_OK);
    CHECK(there.id == first + here.id);
    there.id = here.id;
    CHECK(memcmp(&here, &there, sizeof here) == 0);
    CHECK(memcmp(more.output + offset + 10, zero.output + offset + 10,
                 (size_t)(here.next - offset) - 10) == 0);
    offset = here.next;
  }
  CHECK(offset == more.run.output_length);
}

static void moves_ids(void) {
  static const uint64_t firsts[] = {1, 7, 255, 256, 4294967295, 4294967296,
                                    UINT64_MAX - sizeof input};
  struct tcpclkit_more_options options;
  size_t row, length;
  tcpclkit_more_defaults(&options);
  options.peer_segment = 17;
  options.announce = 40;
  for (row = 0; row < sizeof firsts / sizeof *firsts; row++)
    for (length = 0; length <= sizeof input; length++)
      is_moved(&options, firsts[row], length);
}

#define LINE(id)                                                                                \
  "bundle " id " segments=2 length=34 source=ipn:1.1 time=0 sequence=0 destination=ipn:2.1 "     \
  "payload=5\n"

/* The bundle as the transfer 7, in two segments of 17 bytes, by the fields of RFC 9174 section
 * 5.2.2. The next call begins with 8. */
static void from_seven(void) {
  static const uint8_t start[] = {0x01, 0x02, 0, 0, 0, 0, 0, 0, 0, 7, 0,
                                  0,    0,    0, 0, 0, 0, 0, 0, 0, 0, 17};
  static const uint8_t end[] = {0x01, 0x01, 0, 0, 0, 0, 0, 0, 0, 7, 0, 0, 0, 0, 0, 0, 0, 17};
  struct tcpclkit_more_options options;
  struct texts it;
  const uint8_t *output = it.output;
  uint64_t lines, at;
  CHECK(tcpclkit_more_defaults(&options) == TCPCLKIT_OK);
  CHECK(options.size == sizeof options && options.first == 0 && options.announce == 0);
  CHECK(options.peer_segment == 65536 && options.peer_transfer == UINT64_MAX);
  options.first = 7;
  options.peer_segment = 17;
  CHECK(pack_more(&options, BUNDLE_LENGTH, &it) == TCPCLKIT_OK && it.run.exit_status == 0);
  CHECK(it.run.output_length == sizeof start + sizeof end + BUNDLE_LENGTH);
  CHECK(memcmp(output, start, sizeof start) == 0);
  CHECK(memcmp(output += sizeof start, bundle, 17) == 0);
  CHECK(memcmp(output += 17, end, sizeof end) == 0);
  CHECK(memcmp(output + sizeof end, bundle + 17, 17) == 0);
  CHECK(it.run.report_length == strlen(LINE("7")) && begins(it.report, LINE("7")));
  for (lines = at = 0; at < it.run.report_length; at++)
    lines += it.report[at] == '\n';
  options.first += lines;
  CHECK(pack_more(&options, BUNDLE_LENGTH, &it) == TCPCLKIT_OK);
  CHECK(begins(it.report, LINE("8")));
  /* a fault, whose line counts the bundles of this call */
  CHECK(pack_more(&options, BUNDLE_LENGTH + 1, &it) == TCPCLKIT_OK && it.run.exit_status == 3);
  CHECK(begins(it.report, LINE("8") "tcpclkit: bundle 1 byte 1: B1 input ends inside a bundle\n"));
  /* nothing to pack */
  CHECK(pack_more(&options, 0, &it) == TCPCLKIT_OK && it.run.exit_status == 0);
  CHECK(it.run.output_length == 0 && it.run.report_length == 0);
  CHECK(tcpclkit_pack_more(NULL, 0, &options, NULL, 0, NULL, 0, &it.run) == TCPCLKIT_OK);
}

/* The first ID and the number of bytes are at most the greatest ID together. */
static void last_ids(void) {
  struct tcpclkit_more_options options;
  struct texts it;
  struct tcpclkit_message message;
  size_t length;
  tcpclkit_more_defaults(&options);
  for (length = 0; length <= sizeof input; length++) {
    options.first = UINT64_MAX - length;
    CHECK(pack_more(&options, length, &it) == TCPCLKIT_OK);
    options.first = UINT64_MAX - length + 1;
    if (length > 0) {
      LEAVES(pack_more(&options, length, &it), TCPCLKIT_RANGE, it);
      options.first = UINT64_MAX;
      LEAVES(pack_more(&options, length, &it), TCPCLKIT_RANGE, it);
    }
  }
  options.first = UINT64_MAX - BUNDLE_LENGTH;
  CHECK(pack_more(&options, BUNDLE_LENGTH, &it) == TCPCLKIT_OK);
  CHECK(tcpclkit_read_message(it.output, sizeof it.output, 0, &message) == TCPCLKIT_OK);
  CHECK(message.id == UINT64_MAX - 34);
  CHECK(begins(it.report, "bundle 18446744073709551581 segments=1"));
}

/* What a caller may get wrong. */
static void unwritten_runs(void) {
  struct tcpclkit_more_options usual, segment, announce, unmade[3];
  struct texts it;
  size_t at;
  tcpclkit_more_defaults(&usual);
  segment = announce = unmade[0] = unmade[1] = unmade[2] = usual;
  segment.peer_segment = 0;
  announce.announce = 1048577;
  unmade[0].size = 0;
  unmade[1].size = sizeof usual - 4;
  unmade[2].size = sizeof usual + 8;
  CHECK(tcpclkit_more_defaults(NULL) == TCPCLKIT_NULL);
  LEAVES(pack_more(&segment, 9, &it), TCPCLKIT_RANGE, it);
  LEAVES(pack_more(&announce, 9, &it), TCPCLKIT_RANGE, it);
  LEAVES(pack_more(NULL, 9, &it), TCPCLKIT_NULL, it);
  for (at = 0; at < 3; at++)
    LEAVES(pack_more(&unmade[at], 9, &it), TCPCLKIT_RANGE, it);
  LEAVES(tcpclkit_pack_more(NULL, 1, &usual, it.output, 9, it.report, 9, &it.run), TCPCLKIT_NULL,
         it);
  LEAVES(tcpclkit_pack_more(input, 9, &usual, NULL, 9, it.report, 9, &it.run), TCPCLKIT_NULL, it);
  LEAVES(tcpclkit_pack_more(input, 9, &usual, it.output, 9, NULL, 9, &it.run), TCPCLKIT_NULL, it);
  LEAVES(tcpclkit_pack_more(input, 9, &usual, it.output, 9, it.report, 9, NULL), TCPCLKIT_NULL, it);
  LEAVES(tcpclkit_pack_more(input, SIZE_MAX, &usual, it.output, 9, it.report, 9, &it.run),
         TCPCLKIT_RANGE, it);
}

/* Options as a caller of the raw function has them: fewer or more numbers than are known. */
static void numbers_of_options(void) {
  static const uint64_t numbers[] = {0, 65536, UINT64_MAX, 0, 0, 7};
  struct tcpclkit_more_options usual;
  struct texts whole, it;
  size_t words;
  tcpclkit_more_defaults(&usual);
  CHECK(pack_more(&usual, sizeof input, &whole) == TCPCLKIT_OK);
  for (words = 0; words <= 6; words++) {
    memset(&it, MARK, sizeof it);
    CHECK(tcpclkit_raw_pack_more(input, sizeof input, numbers, words, 1, it.output,
                                 sizeof it.output, 1, it.report, sizeof it.report, &it.run) ==
          (words < 6 ? TCPCLKIT_OK : TCPCLKIT_RANGE));
    CHECK(words == 6 ? IS_MARKED(it) : memcmp(&it, &whole, sizeof it) == 0);
  }
}

void test_more(void) {
  make_input();
  as_pack_writes();
  moves_ids();
  from_seven();
  last_ids();
  unwritten_runs();
  numbers_of_options();
}
