/* registers: fills the vector registers with a secret and prints how many of them still have it
 * after forget_copies; with an argument, without calling that. */
#include "volume.c"

void nbdkit_error(const char *format, ...) { (void)format; }

bool read_some(const char *name, int fd, size_t max, struct bytes *bytes)
{
  (void)name, (void)fd, (void)max, (void)bytes;
  return false;
}

#define EACH(do) do(0) do(1) do(2) do(3) do(4) do(5) do(6) do(7) \
  do(8) do(9) do(10) do(11) do(12) do(13) do(14) do(15)
#define FILL(number) __asm__ volatile("movdqu (%0), %%xmm" #number :: "r"(secret));
#define KEEP(number) __asm__ volatile("movdqu %%xmm" #number ", (%0)" :: "r"(left[number]) : "memory");

int main(int argc, char **argv)
{
  static const uint8_t secret[16] = "fifteen letters";
  static uint8_t left[16][16];
  int remaining = 0;
  (void)argv;
  EACH(FILL)
  if (argc == 1)
    forget_copies();
  EACH(KEEP)
  for (int number = 0; number < 16; number++)
    remaining += memcmp(left[number], secret, sizeof secret) == 0;
  printf("%d\n", remaining);
  return 0;
}
