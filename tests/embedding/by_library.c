/*
 * The program, except for the commands that the library has, too: their output, line and status are the library's.
 *
 *   cc -I include -DPROGRAM="\"$PWD/bin/vuthgal\"" tests/embedding/by_library.c lib/libvuthgal.a -o by_library
 *   VUTHGAL=by_library tests/run
 *
 * runs all cases in this way. The library does a command if its words are files that can be read, and no descriptor is a terminal
 * or a device. Otherwise PROGRAM does it. PROGRAM also does `debug` with commands from a pipe, since the library takes them all, and
 * `explain` with words that the library doesn't know, since only the program looks for other names. Each call adds a line with its name
 * to the file that VUTHGAL_CALLS names.
 */
#include <signal.h>
#include <stdio.h>
#include <stdlib.h>
#include <string.h>
#include <sys/stat.h>
#include <unistd.h>
#include <vuthgal.h>

#define LONGEST 16777216
#define WIDTH 80 /* as the program has it where there is no terminal */

struct text {
  uint8_t *bytes;
  size_t length;
};

static struct text a, b, output, line;

static int is_plain(int descriptor) {
  struct stat is;
  return fstat(descriptor, &is) == 0 && (S_ISREG(is.st_mode) || S_ISFIFO(is.st_mode));
}

/* Where standard input stands in its file, or -1 where it is none. */
static off_t input_place(void) {
  return lseek(0, 0, SEEK_CUR);
}

/* Reads a stream to its end. Returns whether that went well. */
static int read_all(FILE *from, struct text *into) {
  into->bytes = malloc(LONGEST + 1);
  into->length = into->bytes ? fread(into->bytes, 1, LONGEST + 1, from) : 0;
  return into->bytes && !ferror(from) && into->length <= LONGEST;
}

/* Reads a file that is no device. Standard input is left alone, since the program may have to read it. */
static int read_file(const char *name, struct text *into) {
  struct stat is;
  FILE *from;
  if (stat(name, &is) != 0 || !S_ISREG(is.st_mode) || is.st_size > LONGEST || !(from = fopen(name, "rb"))) return 0;
  int done = read_all(from, into);
  fclose(from);
  return done;
}

#define OUT output.bytes, output_room, &output.length, line.bytes, line_room, &line.length

/* Makes a call with so much room, and returns its status. */
static int call(const char *command, size_t output_room, size_t line_room) {
  output.bytes = malloc(output_room + 1);
  line.bytes = malloc(line_room + 1);
  if (strcmp(command, "both") == 0) return vuthgal_both(a.bytes, a.length, OUT);
  if (strcmp(command, "run") == 0) return vuthgal_run(a.bytes, a.length, b.bytes, b.length, OUT);
  if (strcmp(command, "asm") == 0) return vuthgal_asm(a.bytes, a.length, OUT);
  if (strcmp(command, "list") == 0) return vuthgal_list(a.bytes, a.length, OUT);
  if (strcmp(command, "compare") == 0) return vuthgal_compare(a.bytes, a.length, b.bytes, b.length, OUT);
  if (strcmp(command, "choices") == 0) return vuthgal_choices(a.bytes, a.length, OUT);
  if (strcmp(command, "plan") == 0) return vuthgal_plan(a.bytes, a.length, b.bytes, b.length, 1000000, 0, OUT);
  if (strcmp(command, "draw") == 0) return vuthgal_draw(a.bytes, a.length, b.bytes, b.length, WIDTH, OUT);
  if (strcmp(command, "debug") == 0) return vuthgal_debug(a.bytes, a.length, b.bytes, b.length, OUT);
  return vuthgal_explain(a.bytes, a.length, OUT);
}

/* The words with blanks between them. */
static int join(int count, char **words, struct text *into) {
  into->bytes = calloc(LONGEST, 1);
  for (int i = 0; i < count; i++) into->length += sprintf((char *)into->bytes + into->length, i ? " %s" : "%s", words[i]);
  return 1;
}

/* Reads the inputs of a command. Returns its name, or none where the program has to do it. */
static const char *inputs_of(int count, char **words) {
  if (!is_plain(1) || !is_plain(2) || getenv("VUTHGAL_EXPLAIN")) return NULL;
  if (count == 0) return input_place() >= 0 && read_all(stdin, &a) ? "both" : NULL;
  for (int i = 0; i < count; i++)
    if (words[i][0] == '-') return NULL;
  if (strcmp(words[0], "explain") == 0) return count > 1 && join(count - 1, words + 1, &a) ? words[0] : NULL;
  if (strcmp(words[0], "asm") == 0)
    return count == 3 && access(words[2], F_OK) != 0 && read_file(words[1], &a) && freopen(words[2], "wbx", stdout) ? words[0] : NULL;
  if (strcmp(words[0], "list") == 0 || strcmp(words[0], "choices") == 0)
    return count == 2 && read_file(words[1], &a) ? words[0] : NULL;
  if (strcmp(words[0], "debug") == 0)
    return count == 2 && input_place() >= 0 && read_file(words[1], &a) && read_all(stdin, &b) ? words[0] : NULL;
  const char *two[] = {"run", "compare", "plan", "draw"};
  for (size_t i = 0; i < sizeof two / sizeof *two; i++)
    if (strcmp(words[0], two[i]) == 0) return count == 3 && read_file(words[1], &a) && read_file(words[2], &b) ? words[0] : NULL;
  return NULL;
}

int main(int count, char **words) {
  off_t place = input_place();
  const char *command = inputs_of(count - 1, words + 1);
  if (!command) {
    if (place >= 0) lseek(0, place, SEEK_SET); /* a part of an input that is too long has been read */
    execv(PROGRAM, words);
    return 127;
  }
  FILE *calls = getenv("VUTHGAL_CALLS") ? fopen(getenv("VUTHGAL_CALLS"), "a") : NULL;
  if (calls) fprintf(calls, "%s\n", command);
  if (calls) fclose(calls);
  signal(SIGPIPE, SIG_IGN);
  int status = call(command, 0, 0);
  status = call(command, output.length, line.length);
  if (status == 2 && strcmp(command, "explain") == 0) {
    /* what the library returns for words that it doesn't know is checked here, since the program writes more */
    const char *known = "error: `explain` doesn't know these words\n";
    if (output.length != 0 || line.length != strlen(known) || memcmp(line.bytes, known, strlen(known)) != 0) return 99;
    execv(PROGRAM, words);
    return 127;
  }
  if (fwrite(output.bytes, 1, output.length, stdout) != output.length || fflush(stdout) != 0) {
    fputs("write\n", stderr);
    return 5;
  }
  fwrite(line.bytes, 1, line.length, stderr);
  if (status == 3 && strcmp(command, "debug") == 0) lseek(0, place, SEEK_SET); /* the program reads no commands then */
  return status;
}
