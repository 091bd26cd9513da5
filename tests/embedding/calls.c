/* The calls of include/vuthgal.h with too little room, without memory, and at once: says what isn't as the header says.
 *   calls PROGRAM SCHEDULE TRACE PLAN COMMANDS, each a file; linked with --wrap=malloc,--wrap=realloc,--wrap=free
 */
#include <pthread.h>
#include <stdio.h>
#include <stdlib.h>
#include <string.h>
#include <vuthgal.h>

typedef struct { uint8_t *at; size_t length; } bytes;
typedef struct { uint8_t status; uint8_t *output; size_t length; uint8_t *line; size_t line_length; } result;

static bytes program, schedule, trace, plan, commands, text;
static int wrong;

/* how many more allocations succeed, none is told where negative; and how many blocks are there, and were asked for */
static _Thread_local long left = -1, live, asked;

void *__real_malloc(size_t size);
void *__real_realloc(void *at, size_t size);
void __real_free(void *at);

static int refuses(void) { asked++; return left == 0 || (left > 0 && left-- == 0); }

void *__wrap_malloc(size_t size) {
  if (refuses()) return NULL;
  void *at = __real_malloc(size);
  if (at) live++;
  return at;
}

void *__wrap_realloc(void *at, size_t size) {
  if (refuses()) return NULL;
  void *again = __real_realloc(at, size);
  if (!at && again) live++;
  return again;
}

void __wrap_free(void *at) {
  if (at) live--;
  __real_free(at);
}

#define REST output, output_room, output_length, line, line_room, line_length
#define IN(x) x.at, x.length
#define CALL(name, ...) \
  static uint8_t call_##name(uint8_t *output, size_t output_room, size_t *output_length, uint8_t *line, size_t line_room, size_t *line_length) { \
    return vuthgal_##name(__VA_ARGS__, REST); }

CALL(run, IN(program), IN(schedule))
CALL(both, IN(text))
CALL(asm, IN(program))
CALL(list, IN(program))
CALL(compare, IN(program), IN(trace))
CALL(choices, IN(trace))
CALL(plan, IN(program), IN(plan), 1000000, 0)
CALL(draw, IN(program), IN(schedule), 80)
CALL(debug, IN(program), IN(commands))
CALL(explain, (const uint8_t *)"refused asm 1 5", 15)

typedef uint8_t call(uint8_t *, size_t, size_t *, uint8_t *, size_t, size_t *);
static const struct { const char *name; call *call; } calls[] = {
  {"run", call_run}, {"both", call_both}, {"asm", call_asm}, {"list", call_list}, {"compare", call_compare},
  {"choices", call_choices}, {"plan", call_plan}, {"draw", call_draw}, {"debug", call_debug},
  {"explain", call_explain},
};
enum { CALLS = sizeof calls / sizeof *calls };

static void say(const char *name, const char *what, size_t where) {
  printf("%s: %s (%zu)\n", name, what, where);
  wrong = 1;
}

/* a call in so much room, each byte of which was 35, with one more behind it */
static result made(call *it, size_t room, size_t line_room) {
  result r;
  r.output = __real_malloc(room + 1);
  r.line = __real_malloc(line_room + 1);
  memset(r.output, 35, room + 1);
  memset(r.line, 35, line_room + 1);
  r.length = r.line_length = 12345;
  r.status = it(r.output, room, &r.length, r.line, line_room, &r.line_length);
  return r;
}

static void gone(result r) { __real_free(r.output); __real_free(r.line); }

/* whether a buffer has the beginning of these bytes, and is as it was behind it */
static int holds(const uint8_t *buffer, size_t room, const uint8_t *whole, size_t length) {
  size_t n = length < room ? length : room;
  for (size_t i = n; i <= room; i++) if (buffer[i] != 35) return 0;
  return !memcmp(buffer, whole, n);
}

static void in_every_room(const char *name, call *it) {
  enum { MOST = 1 << 20 };
  result whole = made(it, MOST, 4096);
  if (whole.status > 1) say(name, "status", whole.status);
  for (size_t room = 0; room <= whole.length + 1; room += whole.length > 4096 && room > 64 && room + 64 < whole.length ? 997 : 1) {
    result r = made(it, room, room % 40);
    if (r.status != whole.status || r.length != whole.length || !holds(r.output, room, whole.output, whole.length)
        || r.line_length != whole.line_length || !holds(r.line, room % 40, whole.line, whole.line_length)) say(name, "room", room);
    gone(r);
  }
  gone(whole);
}

static void without_memory(const char *name, call *it) {
  enum { MOST = 1 << 20 };
  result whole = made(it, MOST, 4096);
  asked = 0;
  gone(made(it, MOST, 4096));
  long all = asked;
  for (long n = 0; n < all; n += all > 2000 ? 7 : 1) {
    left = n;
    result r = made(it, MOST, 4096);
    left = -1;
    if (live != 0) say(name, "blocks left behind", live);
    if (r.status != 4 && (r.status != whole.status || r.length != whole.length || memcmp(r.output, whole.output, r.length)))
      say(name, "neither want of memory nor the whole", n);
    if (r.status == 4 && (r.line_length != 7 || memcmp(r.line, "memory\n", 7))) say(name, "line", n);
    if (r.status == 4 && (r.length > whole.length || memcmp(r.output, whole.output, r.length))) say(name, "no beginning of the whole", n);
    gone(r);
  }
  left = 0;
  result r = made(it, MOST, 4096);
  left = -1;
  if (all > 0 && r.status != 4) say(name, "status without any memory", r.status);
  gone(r);
  gone(whole);
}

static void *at_once(void *unused) {
  (void)unused;
  for (int n = 0; n < 200; n++) {
    for (size_t c = 0; c < CALLS; c++) {
      result r = made(calls[c].call, 1 << 17, 4096);
      if (r.status > 1) say(calls[c].name, "at once", r.status);
      gone(r);
    }
    result r = made(call_run, 4096, 100);
    if (r.length != trace.length || memcmp(r.output, trace.at, trace.length)) say("run", "at once", n);
    gone(r);
  }
  return NULL;
}

static bytes read_file(const char *path) {
  bytes it = {__real_malloc(1 << 16), 0};
  FILE *file = fopen(path, "rb");
  if (file) it.length = fread(it.at, 1, 1 << 16, file), fclose(file);
  else say(path, "isn't there", 0);
  return it;
}

int main(int count, char **words) {
  if (count != 6) return 2;
  program = read_file(words[1]), schedule = read_file(words[2]), trace = read_file(words[3]);
  plan = read_file(words[4]), commands = read_file(words[5]);
  text.at = __real_malloc(1 << 17);
  text.length = sprintf((char *)text.at, "%.*s\n.run\n%.*s", (int)program.length, program.at, (int)schedule.length, schedule.at);
  for (size_t c = 0; c < CALLS; c++) {
    in_every_room(calls[c].name, calls[c].call);
    without_memory(calls[c].name, calls[c].call);
  }
  pthread_t threads[8];
  for (int n = 0; n < 8; n++) pthread_create(&threads[n], NULL, at_once, NULL);
  for (int n = 0; n < 8; n++) pthread_join(threads[n], NULL);
  live = 0;
  for (long n = 0; n < 1000000 && !getenv("BRIEF"); n++) {
    uint8_t output[64], line[8];
    size_t length, line_length;
    call_run(output, sizeof output, &length, line, sizeof line, &line_length);
  }
  if (live != 0) say("run", "blocks left behind by a million calls", live);
  __real_free(program.at), __real_free(schedule.at), __real_free(trace.at), __real_free(plan.at), __real_free(commands.at), __real_free(text.at);
  puts(wrong ? "wrong" : "as the header says");
  return wrong;
}
