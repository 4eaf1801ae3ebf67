// What the input says: lines are turned round, and words, lines and letters counted. The number of lines is the exit code.
#include "print.h"

enum { ROOM = 512 };
static char room[ROOM];
static char line[ROOM];
static int used, letters[26], words, lines, bytes, other;

static int is_letter(char byte) { return (byte | 32) >= 'a' && (byte | 32) <= 'z'; }

static void end_line(void) {
  for (int low = 0, high = used - 1; low < high; low++, high--) {
    char kept = line[low];
    line[low] = line[high];
    line[high] = kept;
  }
  line[used] = '\n';
  write(1, line, used + 1);
  used = 0;
  lines++;
}

static void take(char byte) {
  static int in_word;
  bytes++;
  if (is_letter(byte)) {
    letters[(byte | 32) - 'a']++;
    words += !in_word;
    in_word = 1;
  } else {
    in_word = 0;
    other += byte >> 7 & 1;
  }
  if (byte == '\n' || used == ROOM - 1) end_line();
  if (byte != '\n') line[used++] = byte;
}

int main(void) {
  int got;
  while ((got = read(0, room, 37)) > 0)
    for (int at = 0; at < got; at++) take(room[at]);
  if (used) end_line();
  named_number("bytes", bytes);
  named_number("words", words);
  named_number("lines", lines);
  named_number("other", other);
  for (int at = 0; at < 26; at++) {
    if (!letters[at]) continue;
    char name[2] = {(char)('a' + at), 0};
    named_number(name, letters[at]);
  }
  write(2, "told\n", 5);
  return lines;
}
