/* Sessions where something is in their way: each request for memory refused in turn, no room, no session, a copy that was moved, and a
   thousand at once. The last line is `as the header says`, or it exits with the number of the line that isn't so. */
#include <pthread.h>
#include <string.h>
#include <vuthgal.h>
#include "requests.h"

static const char *PROGRAM = ".phaser p 2\n.thread a main\n.thread b main\nmain: paaa r0 p\nout r0\njmp main\n";

static uint8_t open_it(vuthgal_session *s, const char *program) {
  uint8_t line[VUTHGAL_LINE];
  size_t length;
  uint8_t status = vuthgal_session_open(s, (const uint8_t *)program, strlen(program), line, sizeof line, &length);
  if (status == VUTHGAL_MEMORY) CHECK(length == 7 && !memcmp(line, "memory\n", 7));
  CHECK((status == VUTHGAL_DONE) == (s->is_open == 1));
  CHECK(status != VUTHGAL_DONE || length == 0);
  return status;
}

static uint8_t say(vuthgal_session *s, const char *command, char *reply, size_t *length) {
  memset(reply, '#', 4096);
  uint8_t status = vuthgal_session_command(s, (const uint8_t *)command, strlen(command), (uint8_t *)reply, 4096, length);
  CHECK(*length < 4096 && reply[*length] == '#');
  reply[*length] = 0;
  return status;
}

static void refused_memory(void) {
  static const char *const commands[] = {"s t0", "s t1", "s t0", "b", "p", "g t0*3 t1*2", "k 1", "hm", "s t0", "s t1", "s t1"};
  vuthgal_session s = VUTHGAL_SESSION;
  char before[4096], reply[4096];
  size_t length, n, c, points = 0;
  long at_first = held;
  for (n = 0;; n++) {
    left = (long)n;
    uint8_t status = open_it(&s, PROGRAM);
    int is_granted = left >= 0;
    left = -1;
    vuthgal_session_close(&s);
    CHECK(held == at_first);
    if (is_granted) break;
    CHECK(status == VUTHGAL_MEMORY || status == VUTHGAL_DONE);
  }
  CHECK(n > 5);
  CHECK(open_it(&s, PROGRAM) == VUTHGAL_DONE);
  for (c = 0; c < sizeof commands / sizeof *commands; c++)
    for (n = 0;; n++, points++) {
      CHECK(say(&s, "p", before, &length) == VUTHGAL_DONE);
      left = (long)n;
      uint8_t status = say(&s, commands[c], reply, &length);
      left = -1;
      if (status == VUTHGAL_DONE) break;
      CHECK(status == VUTHGAL_MEMORY && length == 0 && n < 50);
      if (s.is_open) {
        CHECK(say(&s, "p", reply, &length) == VUTHGAL_DONE && !strcmp(before, reply));
      } else {
        CHECK(!strcmp(commands[c], "p") && say(&s, "p", reply, &length) == VUTHGAL_CLOSED);
        CHECK(open_it(&s, PROGRAM) == VUTHGAL_DONE);
      }
    }
  CHECK(points >= sizeof commands / sizeof *commands);
  vuthgal_session_close(&s);
  CHECK(held == at_first);
}

static void rooms(void) {
  vuthgal_session s = VUTHGAL_SESSION, moved;
  uint8_t few[8] = "#######";
  char reply[4096], again[4096];
  size_t length, all;
  CHECK(say(&s, "p", reply, &length) == VUTHGAL_CLOSED && length == 0);
  CHECK(vuthgal_session_reply(&s, NULL, 0, &length) == VUTHGAL_CLOSED && length == 0);
  vuthgal_session_close(&s);
  CHECK(open_it(&s, "hm") == VUTHGAL_REFUSED);
  CHECK(open_it(&s, PROGRAM) == VUTHGAL_DONE && open_it(&s, PROGRAM) == VUTHGAL_DONE);
  CHECK(vuthgal_session_reply(&s, NULL, 0, &length) == VUTHGAL_DONE && length == 0);
  CHECK(vuthgal_session_command(&s, (const uint8_t *)"s t0", 4, few, 3, &all) == VUTHGAL_DONE);
  CHECK(all == 12 && !memcmp(few, "1 t####", 7));
  CHECK(vuthgal_session_reply(&s, (uint8_t *)reply, 4096, &length) == VUTHGAL_DONE);
  CHECK(length == all && !memcmp(reply, "1 t0 0 wait\n", 12));
  CHECK(vuthgal_session_command(&s, (const uint8_t *)"p", 1, NULL, 0, &all) == VUTHGAL_DONE && all > 100);
  CHECK(vuthgal_session_reply(&s, (uint8_t *)again, 4096, &length) == VUTHGAL_DONE && length == all);
  CHECK(say(&s, "p", reply, &length) == VUTHGAL_DONE && !memcmp(reply, again, all));
  CHECK(vuthgal_session_command(&s, NULL, 0, few, 8, &all) == VUTHGAL_DONE && all == 2 && !memcmp(few, "?\n", 2));
  CHECK(say(&s, "q", reply, &length) == VUTHGAL_DONE && length == 0);
  moved = s;
  CHECK(say(&moved, "s t1", reply, &length) == VUTHGAL_DONE && !strcmp(reply, "2 t1 0 = 1 +p0 1\n"));
  vuthgal_session_close(&moved);
  vuthgal_session_close(&moved);
  CHECK(say(&moved, "s t1", reply, &length) == VUTHGAL_CLOSED);
}

/* each call that has no text, on a session and on none */
static void looks(void) {
  vuthgal_session s = VUTHGAL_SESSION, copy = VUTHGAL_SESSION;
  vuthgal_event event = {9, 9, 9, 9, 9, 9, 9};
  vuthgal_state state;
  vuthgal_thread threads[3], one;
  vuthgal_phaser phasers[2];
  vuthgal_entry entries[2];
  int32_t cells[33], values[2] = {7, 7};
  uint64_t turns = 9, expiries = 9;
  size_t count = 9, length;
  char reply[4096];
  long at_first = held, n;
  memset(threads, 7, sizeof threads), memset(phasers, 7, sizeof phasers), memset(cells, 7, sizeof cells);
  CHECK(vuthgal_session_enabled(&s, &turns, &expiries) == VUTHGAL_CLOSED && !turns && !expiries);
  CHECK(vuthgal_session_step(&s, 0, 0, &event) == VUTHGAL_CLOSED && event.number == 9);
  CHECK(vuthgal_session_back(&s) == VUTHGAL_CLOSED);
  CHECK(vuthgal_session_look(&s, &state, threads, 3, phasers, 2, NULL, 0, cells, 33) == VUTHGAL_CLOSED && threads[0].row == 0x0707);
  CHECK(vuthgal_session_stack(&s, 0, entries, 2, &count) == VUTHGAL_CLOSED && count == 9);
  CHECK(vuthgal_session_outputs(&s, 0, values, 2, &count) == VUTHGAL_CLOSED && count == 9);
  CHECK(vuthgal_session_copy(&s, &copy) == VUTHGAL_CLOSED && !copy.is_open);
  CHECK(open_it(&s, PROGRAM) == VUTHGAL_DONE);
  left = 0;
  CHECK(vuthgal_session_step(&s, 0, 0, &event) == VUTHGAL_DONE);
  CHECK(event.number == 1 && event.row == 0 && event.what == VUTHGAL_WAITS && event.mark == VUTHGAL_NO_MARK && event.object == VUTHGAL_NONE);
  CHECK(vuthgal_session_enabled(&s, &turns, &expiries) == VUTHGAL_DONE && turns == 2 && !expiries);
  CHECK(vuthgal_session_look(&s, &state, threads, 3, phasers, 1, NULL, 0, cells, 33) == VUTHGAL_DONE);
  CHECK(state.choices == 1 && state.steps == 1 && state.threads == 2 && state.phasers == 1 && state.barriers == 0 && state.standing == VUTHGAL_LIVE);
  CHECK(threads[0].status == VUTHGAL_AWAITS_PHASE && threads[0].object == 0 && threads[0].value == 0);
  CHECK(threads[1].status == VUTHGAL_RUNS && threads[1].object == VUTHGAL_NONE && threads[2].row == 0x0707);
  CHECK(phasers[0].parties == 2 && phasers[0].arrived == 1 && phasers[0].unarrived == 1 && phasers[0].parent == VUTHGAL_NONE);
  CHECK(phasers[1].parties == 0x0707 && cells[0] == 0 && cells[31] == 0 && cells[32] == 0x07070707);
  CHECK(vuthgal_session_look(&s, &state, &one, 1, NULL, 0, NULL, 0, NULL, 0) == VUTHGAL_DONE && one.status == VUTHGAL_AWAITS_PHASE);
  CHECK(vuthgal_session_step(&s, 1, 0, &event) == VUTHGAL_DONE);
  CHECK(event.what == VUTHGAL_RESULT && event.value == 1 && event.mark == VUTHGAL_PHASE_ENDED && event.object == 0 && event.view == 1);
  CHECK(vuthgal_session_step(&s, 2, 0, &event) == VUTHGAL_NO_THREAD && event.number == 2);
  CHECK(vuthgal_session_stack(&s, 2, entries, 2, &count) == VUTHGAL_NO_THREAD && count == 9);
  CHECK(vuthgal_session_outputs(&s, 255, values, 2, &count) == VUTHGAL_NO_THREAD && count == 9);
  CHECK(vuthgal_session_stack(&s, 1, entries, 2, &count) == VUTHGAL_DONE && count == 0);
  CHECK(vuthgal_session_step(&s, 1, 0, &event) == VUTHGAL_MEMORY && event.number == 2);
  left = -1;
  CHECK(vuthgal_session_step(&s, 1, 0, &event) == VUTHGAL_DONE && event.what == VUTHGAL_OUT);
  CHECK(vuthgal_session_outputs(&s, 1, values, 0, &count) == VUTHGAL_DONE && count == 1 && values[0] == 7);
  CHECK(vuthgal_session_outputs(&s, 1, values, 2, &count) == VUTHGAL_DONE && count == 1 && values[0] == 1 && values[1] == 7);
  for (n = 0;; n++) {
    left = n;
    uint8_t status = vuthgal_session_copy(&s, &copy);
    int is_granted = left >= 0;
    left = -1;
    if (is_granted) { CHECK(status == VUTHGAL_DONE); break; }
    CHECK(status == VUTHGAL_MEMORY && !copy.is_open);
  }
  CHECK(n > 3);
  CHECK(vuthgal_session_back(&copy) == VUTHGAL_UNLIKE && vuthgal_session_step(&copy, 0, 0, &event) == VUTHGAL_DONE && event.number == 4);
  CHECK(vuthgal_session_look(&s, &state, NULL, 0, NULL, 0, NULL, 0, NULL, 0) == VUTHGAL_DONE && state.choices == 3);
  CHECK(vuthgal_session_back(&s) == VUTHGAL_DONE && vuthgal_session_back(&s) == VUTHGAL_DONE && vuthgal_session_back(&s) == VUTHGAL_DONE);
  CHECK(vuthgal_session_back(&s) == VUTHGAL_UNLIKE);
  CHECK(vuthgal_session_other(&s, 0, 0, 9, (const uint8_t *)"t0 t1*3", 7, (uint8_t *)reply, 4096, &length) == VUTHGAL_DONE);
  CHECK(length == 18 && !memcmp(reply, "t0 t1*3 t0 t1 t0*3", 18));
  CHECK(vuthgal_session_other(&s, 0, 0, 9, (const uint8_t *)"hm", 2, (uint8_t *)reply, 4096, &length) == VUTHGAL_REFUSED && !length);
  CHECK(vuthgal_session_other(&s, 2, 0, 9, NULL, 0, (uint8_t *)reply, 4096, &length) == VUTHGAL_NO_THREAD && !length);
  CHECK(vuthgal_expect((const uint8_t *)"state 0 0 live\n", 15, (const uint8_t *)"live", 4) == VUTHGAL_DONE);
  CHECK(vuthgal_expect((const uint8_t *)"state 0 0 live\n", 15, (const uint8_t *)"all", 3) == VUTHGAL_UNLIKE);
  CHECK(vuthgal_expect(NULL, 0, (const uint8_t *)"t0", 2) == VUTHGAL_REFUSED);
  CHECK(vuthgal_session_copy(&s, &copy) == VUTHGAL_DONE);
  vuthgal_session_close(&s);
  vuthgal_session_close(&copy);
  CHECK(held == at_first);
}

static uint8_t go_to(vuthgal_session *s, const char *played, uint64_t number) {
  return vuthgal_session_go_to(s, (const uint8_t *)played, strlen(played), number);
}

/* any choice that was played, also one that can't be taken back any more; breakpoints and reply stay, and nothing else changes */
static void go_back(void) {
  static const char PLAYED[] = "t0 t1 t0*2 t1*9000";
  vuthgal_session s = VUTHGAL_SESSION;
  char before[4096], reply[4096];
  size_t length, n;
  long at_first = held;
  uint8_t status;
  CHECK(go_to(&s, PLAYED, 0) == VUTHGAL_CLOSED && open_it(&s, PROGRAM) == VUTHGAL_DONE);
  CHECK(say(&s, "g t0 t1 t0*2 t1*9000", reply, &length) == VUTHGAL_DONE && !strcmp(reply, "end 9004\n"));
  CHECK(say(&s, "k 1", reply, &length) == VUTHGAL_DONE && say(&s, "p", before, &length) == VUTHGAL_DONE);
  CHECK(go_to(&s, PLAYED, 9005) == VUTHGAL_UNLIKE && go_to(&s, "t0 hm", 1) == VUTHGAL_REFUSED);
  CHECK(go_to(&s, "t0 t2", 2) == VUTHGAL_NO_THREAD && go_to(&s, "t0 t2", UINT64_MAX) == VUTHGAL_UNLIKE);
  CHECK(vuthgal_session_reply(&s, (uint8_t *)reply, 4096, &length) == VUTHGAL_DONE && !memcmp(reply, before, length));
  for (n = 0;; n++) {
    left = (long)n;
    status = go_to(&s, PLAYED, 2);
    int is_granted = left >= 0;
    left = -1;
    if (is_granted) break;
    /* it is out of memory, or goes there without that request */
    if (status == VUTHGAL_DONE) {
      CHECK(say(&s, "p", reply, &length) == VUTHGAL_DONE && !strncmp(reply, "state 2 2 live\n", 15));
      CHECK(go_to(&s, PLAYED, 9004) == VUTHGAL_DONE);
    } else {
      CHECK(status == VUTHGAL_MEMORY);
    }
    CHECK(say(&s, "p", reply, &length) == VUTHGAL_DONE && !strcmp(reply, before));
  }
  CHECK(status == VUTHGAL_DONE && n > 5);
  CHECK(vuthgal_session_reply(&s, (uint8_t *)reply, 4096, &length) == VUTHGAL_DONE && !memcmp(reply, before, length));
  CHECK(say(&s, "s t0", reply, &length) == VUTHGAL_DONE && !strcmp(reply, "3 t0 0 = 1\n"));
  CHECK(go_to(&s, PLAYED, 9004) == VUTHGAL_DONE && say(&s, "p", reply, &length) == VUTHGAL_DONE && !strcmp(reply, before));
  CHECK(vuthgal_session_back(&s) == VUTHGAL_DONE && go_to(&s, "", 0) == VUTHGAL_DONE && vuthgal_session_back(&s) == VUTHGAL_UNLIKE);
  CHECK(say(&s, "g t0 t1 t0*2", reply, &length) == VUTHGAL_DONE && !strcmp(reply, "at 2\n"));
  vuthgal_session_close(&s);
  CHECK(held == at_first);
}

/* the sessions of a thousand threads, which another thread opened, and this one closes */
static void *one_of_many(void *at) {
  vuthgal_session *s = at;
  char reply[4096];
  size_t length, n;
  for (n = 0; n < 200; n++) {
    CHECK(say(s, n % 2 ? "s t1" : "s t0", reply, &length) == VUTHGAL_DONE);
    CHECK((unsigned long)atol(reply) == n + 1);
  }
  vuthgal_session_close(s);
  return NULL;
}

static void many(void) {
  enum { MANY = 1000 };
  static vuthgal_session sessions[MANY];
  static pthread_t threads[MANY];
  pthread_attr_t small;
  size_t n;
  CHECK(!pthread_attr_init(&small) && !pthread_attr_setstacksize(&small, 1 << 16));
  for (n = 0; n < MANY; n++) CHECK(open_it(&sessions[n], PROGRAM) == VUTHGAL_DONE);
  for (n = 0; n < MANY; n++) CHECK(!pthread_create(&threads[n], &small, one_of_many, &sessions[n]));
  for (n = 0; n < MANY; n++) CHECK(!pthread_join(threads[n], NULL) && !sessions[n].is_open);
}

int main(void) {
  refused_memory();
  rooms();
  looks();
  go_back();
  many();
  puts("as the header says");
  return 0;
}
