/* Where inputs are refused, and what helps: examples, each in every room from none on and with each request for memory refused. The last
   line is `as the header says`, or it exits with the number of the line that isn't so. */
#include <string.h>
#include <vuthgal.h>
#include "requests.h"

#define PAIR ".thread ann main\n.thread bob main\nmain: halt\n"
#define IN(text) (const uint8_t *)(text), strlen(text)

static const struct example {
  const char *program;
  uint8_t kind;
  const char *input;
  uint8_t status;
  vuthgal_place place;
  const char *output, *line;
} examples[] = {
  {".thread a main\nmain: paa r0 p\nhalt\n", VUTHGAL_PROGRAM, "", 3, {2, 7, 3, 0}, "near: paaa\n", "refused asm 2 3\n"},
  {".phaser p 2\n.thread ann main\nmain: paaa r0 q\nhalt\n", VUTHGAL_PLAN, "?", 3, {3, 15, 1, 0}, "help: the names are p\n",
   "refused asm 3 9\n"},
  {".thread ann main\nmain: out r0\n", VUTHGAL_SCHEDULE, "t0", 3, {2, 7, 6, 0}, "help: halt, jmp, ret or throw as the last row\n",
   "refused load 2\n"},
  {PAIR, VUTHGAL_PLAN, "ann bob\n  an. bob", 3, {2, 3, 3, VUTHGAL_PLAN}, "near: ann.\n", "refused plan 2 4\n"},
  {PAIR, VUTHGAL_SCHEDULE, "t0\n t1 t*\n", 3, {2, 6, 1, VUTHGAL_SCHEDULE},
   "help: a count follows its star, and no blank is beside the star: `t0*3`\n", "refused schedule 1 8\n"},
  {PAIR ".run\nt0\nt0 tx\n", VUTHGAL_TEXT, "", 3, {6, 5, 1, 0}, "help: tN, xN, tN*K and xN*K with blanks between them\n",
   "refused schedule 1 7\n"},
  {"PBW1", VUTHGAL_SCHEDULE, "t0", 3, {0, 0, 0, 0}, NULL, "refused image 1\n"},
  {PAIR, VUTHGAL_SCHEDULE, "t0 t1", 0, {0, 0, 0, 0}, "", ""},
  {PAIR, VUTHGAL_PLAN, "ann. bob.", 0, {0, 0, 0, 0}, "", ""},
  {PAIR ".run\nt0", VUTHGAL_TEXT, "", 0, {0, 0, 0, 0}, "", ""},
};

static int is_at(vuthgal_place a, vuthgal_place b) {
  return a.line == b.line && a.column == b.column && a.length == b.length && a.input == b.input;
}

int main(void) {
  static const vuthgal_place NOWHERE = {0, 0, 0, 0};
  uint8_t output[512], line[VUTHGAL_LINE], *large;
  size_t e, room, length, line_length;
  for (e = 0; e < sizeof examples / sizeof *examples; e++) {
    const struct example *it = &examples[e];
    for (room = 0; room < 100; room++) {
      vuthgal_place place = {7, 7, 7, 7};
      size_t line_room = room % 20;
      memset(output, '#', sizeof output), memset(line, '#', sizeof line);
      CHECK(vuthgal_mistake(IN(it->program), it->kind, IN(it->input), &place, output, room, &length, line, line_room, &line_length) == it->status);
      CHECK(is_at(place, it->place) && line_length == strlen(it->line) && output[room] == '#' && line[line_room] == '#');
      CHECK(!memcmp(line, it->line, line_length < line_room ? line_length : line_room));
      if (it->output) CHECK(length == strlen(it->output) && !memcmp(output, it->output, length < room ? length : room));
    }
    for (room = 0;; room++) {
      vuthgal_place place;
      long at_first = held;
      uint8_t status;
      int is_granted;
      left = (long)room;
      status = vuthgal_mistake(IN(it->program), it->kind, IN(it->input), &place, output, sizeof output, &length, line, sizeof line, &line_length);
      is_granted = left >= 0;
      left = -1;
      CHECK(held == at_first);
      if (status == VUTHGAL_MEMORY) CHECK(line_length == 7 && !memcmp(line, "memory\n", 7) && !length && is_at(place, NOWHERE));
      else CHECK(status == it->status && line_length == strlen(it->line) && !memcmp(line, it->line, line_length));
      if (is_granted) break;
    }
  }
  large = calloc(VUTHGAL_MOST_BYTES + 1, 1);
  CHECK(large != NULL);
  {
    vuthgal_place place = {7, 7, 7, 7};
    CHECK(vuthgal_mistake(large, VUTHGAL_MOST_BYTES + 1, 0, NULL, 0, &place, output, 9, &length, line, 9, &line_length) == VUTHGAL_TOO_LONG);
    CHECK(is_at(place, NOWHERE) && !length && line_length == 5 && !memcmp(line, "read\n", 5));
  }
  free(large);
  puts("as the header says");
  return 0;
}
