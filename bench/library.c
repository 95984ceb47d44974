/* Judges the bundle on standard input as often as the first word says. */
#include <stdio.h>
#include <stdlib.h>
#include <tcpclkit.h>

int main(int count, char **words) {
  static uint8_t bytes[4096];
  struct tcpclkit_verdict verdict;
  size_t length = fread(bytes, 1, sizeof bytes, stdin);
  unsigned long good = 0, rounds = count > 1 ? strtoul(words[1], NULL, 10) : 0;
  for (unsigned long round = 0; round < rounds; round++)
    good += tcpclkit_judge_bundle(bytes, length, &verdict) == TCPCLKIT_OK;
  return good != rounds;
}
