// What the text of a loop's event file costs where nothing is looked up: the same lines, in pieces of 4096 bytes.
//
//   records FILE     writes the lines to the output
#include <stdio.h>
#include <stdlib.h>
#include <string.h>
#include <unistd.h>

static char buffer[4096];
static size_t used;

static void hand_on(void) {
  size_t sent = 0;
  while (sent < used) {
    ssize_t more = write(1, buffer + sent, used - sent);
    if (more <= 0) exit(1);
    sent += (size_t)more;
  }
  used = 0;
}

static void line(unsigned long offset, unsigned word) {
  static const char hex[] = "0123456789abcdef";
  char digits[20];
  int count = 0;
  if (used + 40 > sizeof buffer) hand_on();
  do digits[count++] = (char)('0' + offset % 10);
  while (offset /= 10);
  while (count > 0) buffer[used++] = digits[--count];
  memcpy(buffer + used, " taken ", 7);
  used += 7;
  for (int at = 28; at >= 0; at -= 4) buffer[used++] = hex[(word - 1) >> at & 15];
  buffer[used++] = '\n';
}

int main(int count, char **words) {
  static unsigned piece[1024];
  if (count != 2) return 2;
  FILE *file = fopen(words[1], "rb");
  if (!file || fseek(file, 16, SEEK_SET) != 0) return 1;
  unsigned long offset = 16;
  for (size_t got; (got = fread(piece, 4, 1024, file)) > 0;)
    for (size_t at = 0; at < got; at++, offset += 4) line(offset, piece[at]);
  memcpy(buffer + used, "cut\n", 4);
  used += 4;
  hand_on();
  return 0;
}
