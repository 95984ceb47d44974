#include <stdio.h>
#include <tcpclkit.h>

int main(void) {
  static uint8_t bytes[1 << 20];
  struct tcpclkit_verdict verdict;
  size_t length = fread(bytes, 1, sizeof bytes, stdin);
  uint32_t status = tcpclkit_judge_bundle(bytes, length, &verdict);
  puts(status == TCPCLKIT_OK ? "good" : status == TCPCLKIT_TRUNCATED ? "truncated" : "bad");
  return status != TCPCLKIT_OK;
}
