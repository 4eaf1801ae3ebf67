// The calls and their refusals, and an exit code of more than eight bits.
#include "print.h"

static char room[16];
static const char fixed[] = "can't be written";

int main(void) {
  named_number("read from 1", read(1, room, 4));
  named_number("read to nowhere", read(0, (void *)0x40000000, 4));
  named_number("read to the code", read(0, (void *)main, 4));
  named_number("read nothing", read(0, room, 0));
  int got = read(0, room, sizeof room);
  named_number("read", got);
  named_number("write", write(1, room, got > 0 ? (unsigned)got : 0));
  named_number("write to 9", write(9, room, 4));
  named_number("write from nowhere", write(1, (void *)0x40000000, 4));
  named_number("write nothing", write(1, room, 0));
  named_number("write", write(2, fixed, sizeof fixed - 1));
  named_number("call 4000", system_call(4000, 1, 2, 3));
  named_number("call -1", system_call(-1, 1, 2, 3));
  exit(1234567);
  return 0;
}
