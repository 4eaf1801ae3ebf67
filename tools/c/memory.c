// What the compiler may call without being asked, also where there is no library.
typedef unsigned size;

void *memcpy(void *to, const void *from, size count) {
  char *out = to;
  const char *in = from;
  while (count--) *out++ = *in++;
  return to;
}

void *memmove(void *to, const void *from, size count) {
  char *out = to;
  const char *in = from;
  if (out <= in) return memcpy(to, from, count);
  while (count--) out[count] = in[count];
  return to;
}

void *memset(void *to, int byte, size count) {
  char *out = to;
  while (count--) *out++ = (char)byte;
  return to;
}

int memcmp(const void *left, const void *right, size count) {
  const unsigned char *one = left, *other = right;
  for (; count; count--, one++, other++)
    if (*one != *other) return *one - *other;
  return 0;
}
