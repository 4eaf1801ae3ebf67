// What the loops of the bench cost where nothing is interpreted: the same additions, and the same bytes written.
//
//   yardstick count TURNS          counts down TURNS times
//   yardstick lines TURNS FILE     writes the trace of so many turns, in pieces of 4096 bytes
//   yardstick NAME TURNS           runs a loop of loops.c, and prints its number
#include <fcntl.h>
#include <stdio.h>
#include <stdlib.h>
#include <string.h>
#include <unistd.h>

#include "loops.c"

static char buffer[4096];
static size_t used;
static int file;

static void hand_on(void) {
  size_t sent = 0;
  while (sent < used) {
    ssize_t more = write(file, buffer + sent, used - sent);
    if (more <= 0) exit(1);
    sent += (size_t)more;
  }
  used = 0;
}

static void line(unsigned address) {
  static const char digits[] = "0123456789abcdef";
  if (used + 11 > sizeof buffer) hand_on();
  buffer[used++] = 'I';
  buffer[used++] = ' ';
  for (int at = 28; at >= 0; at -= 4) buffer[used++] = digits[address >> at & 15];
  buffer[used++] = '\n';
}

// Whether there is a loop of this name.
static int run_loop(const char *name, unsigned turns) {
  unsigned (*loop)(unsigned) = 0;
  if (strcmp(name, "arithmetic") == 0) loop = arithmetic;
  if (strcmp(name, "memory") == 0) loop = memory;
  if (strcmp(name, "calls") == 0) loop = calls;
  if (strcmp(name, "compress") == 0) loop = compress;
  if (strcmp(name, "hash") == 0) loop = hash;
  if (strcmp(name, "interpret") == 0) loop = interpret;
  if (loop) printf("%u\n", loop(turns));
  return loop != 0;
}

int main(int count, char **words) {
  if (count < 3) return 2;
  unsigned turns = (unsigned)strtoul(words[2], 0, 10);
  if (strcmp(words[1], "count") == 0) {
    for (unsigned left = turns; left; left--) __asm__ volatile("" : "+r"(left));
    return 0;
  }
  if (run_loop(words[1], turns)) return 0;
  if (count < 4) return 2;
  file = open(words[3], O_WRONLY | O_CREAT | O_TRUNC, 0666);
  if (file < 0) return 1;
  line(0x10074);
  for (unsigned left = turns; left; left--) {
    line(0x10078);
    line(0x1007c);
    if (left > 1) line(0x10080);
  }
  line(0x10084);
  line(0x10088);
  line(0x1008c);
  hand_on();
  return 0;
}
