// Functions and data in sections of their own names, which the linker keeps apart.
#include "print.h"

#define IN(name) __attribute__((section(name), noinline))

IN(".code_one") static int one(int number) { return number * 3 + 1; }
IN(".code_two") static int two(int number) { return number / 2; }
IN(".data_one") static int steps = 0;
IN(".data_two") static int (*functions[])(int) = {two, one};
IN(".fixed_one") static const char name[] = "steps";

int main(void) {
  for (int number = 27; number != 1; number = functions[number & 1](number)) steps++;
  named_number(name, steps);
  return steps;
}
