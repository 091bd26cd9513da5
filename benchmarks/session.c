/* How long the calls of a session take, in microseconds of the processor, each with its name: a step of two threads that meet again and
   again, the same step as a command with its reply, a step back, who may go, the whole state, a copy, and an open with its close. */
#include <stdio.h>
#include <string.h>
#include <time.h>
#include <vuthgal.h>

static const char *PROGRAM = ".phaser p 2\n.thread a main\n.thread b main\nmain: paaa r0 p\njmp main\n";
static uint8_t reply[VUTHGAL_REPLY], line[VUTHGAL_LINE];
static size_t length;
static vuthgal_session s = VUTHGAL_SESSION, other = VUTHGAL_SESSION;
static vuthgal_thread threads[64];
static vuthgal_phaser phasers[64];
static vuthgal_barrier barriers[64];

static double now(void) {
  struct timespec at;
  clock_gettime(CLOCK_PROCESS_CPUTIME_ID, &at);
  return at.tv_sec * 1e6 + at.tv_nsec / 1e3;
}

static uint8_t open_it(int n) {
  (void)n;
  vuthgal_session_close(&s);
  return vuthgal_session_open(&s, (const uint8_t *)PROGRAM, strlen(PROGRAM), line, sizeof line, &length);
}

static uint8_t step(int n) {
  vuthgal_event event;
  return vuthgal_session_step(&s, n % 2, 0, &event);
}

static uint8_t command(int n) {
  return vuthgal_session_command(&s, (const uint8_t *)(n % 2 ? "s t1" : "s t0"), 4, reply, sizeof reply, &length);
}

static uint8_t back(int n) {
  (void)n;
  return vuthgal_session_back(&s);
}

static uint8_t enabled(int n) {
  uint64_t turns, expiries;
  (void)n;
  return vuthgal_session_enabled(&s, &turns, &expiries);
}

static uint8_t state(int n) {
  vuthgal_state counts;
  int32_t cells[32];
  (void)n;
  return vuthgal_session_look(&s, &counts, threads, 64, phasers, 64, barriers, 64, cells, 32);
}

static uint8_t copy(int n) {
  (void)n;
  return vuthgal_session_copy(&s, &other);
}

static uint8_t took(const char *name, uint8_t call(int), int count) {
  uint8_t status = 0;
  int n;
  double begun = now();
  for (n = 0; n < count; n++) status |= call(n);
  printf("%s %.2f\n", name, (now() - begun) / count);
  return status;
}

int main(void) {
  return took("open", open_it, 10000) | took("command", command, 1000000) | took("step", step, 1000000) |
         took("back", back, 4096) | took("enabled", enabled, 1000000) | took("state", state, 1000000) | took("copy", copy, 10000);
}
