// The primes below 10,000, one byte a number, and twins among them.
#include "print.h"

enum { LIMIT = 10000 };
static char is_composite[LIMIT];

int main(void) {
  int count = 0, last = 0, twins = 0;
  for (int number = 2; number < LIMIT; number++) {
    if (is_composite[number]) continue;
    count++;
    twins += number - last == 2;
    last = number;
    for (int multiple = number * number; multiple < LIMIT; multiple += number) is_composite[multiple] = 1;
  }
  named_number("primes", count);
  named_number("twins", twins);
  named_number("last", last);
  return count % 256;
}
