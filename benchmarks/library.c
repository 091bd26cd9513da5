/* How long a call of libvuthgal takes: plays PROGRAM under SCHEDULE again and again, and prints the processor's microseconds. */
#include <stdio.h>
#include <time.h>
#include <vuthgal.h>

static uint8_t program[1 << 16], schedule[1 << 16], trace[1 << 16], line[VUTHGAL_LINE];

static size_t read_file(const char *path, uint8_t *to) {
  FILE *file = fopen(path, "rb");
  size_t length = file ? fread(to, 1, 1 << 16, file) : 0;
  if (file) fclose(file);
  return length;
}

int main(int count, char **words) {
  enum { CALLS = 200000 };
  size_t length, line_length, n;
  struct timespec begun, ended;
  if (count != 3) return 2;
  size_t program_length = read_file(words[1], program), schedule_length = read_file(words[2], schedule);
  clock_gettime(CLOCK_PROCESS_CPUTIME_ID, &begun);
  for (n = 0; n < CALLS; n++)
    if (vuthgal_run(program, program_length, schedule, schedule_length, trace, sizeof trace, &length, line, sizeof line, &line_length)) return 1;
  clock_gettime(CLOCK_PROCESS_CPUTIME_ID, &ended);
  printf("%.1f\n", ((ended.tv_sec - begun.tv_sec) * 1e9 + (ended.tv_nsec - begun.tv_nsec)) / 1e3 / CALLS);
  return 0;
}
