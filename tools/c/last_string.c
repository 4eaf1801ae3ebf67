// The lengths of two strings, found word by word, as many libraries find them: each read is of an aligned word, so the last
// one may reach up to three bytes past the string's end. One string stands last in what is read alone, the other last in what
// can be written. The exit code is the sum of the lengths.
#include "system.h"

static const char fixed[] = "a string of 24 bytes....";
static char held[] = "nine more";

static unsigned length_of(const char *text) {
  const char *at = text;
  while ((unsigned)at % 4 && *at) at++;
  if ((unsigned)at % 4 == 0) {
    unsigned word;
    do {
      word = *(const volatile unsigned *)at;
      at += 4;
    } while (!((word - 0x01010101u) & ~word & 0x80808080u));
    at -= 4;
    while (*at) at++;
  }
  return (unsigned)(at - text);
}

int main(void) {
  const char *volatile first = fixed;
  char *volatile second = held;
  return (int)(length_of(first) + length_of(second));
}
