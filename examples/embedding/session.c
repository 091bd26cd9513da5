/* A session: plays the program in FILE, command by command, as `vuthgal debug FILE` does.
   cc -I include examples/embedding/session.c lib/libvuthgal.a -o session && echo 's t0' | ./session examples/meeting.asm */
#include <stdio.h>
#include <stdlib.h>
#include <string.h>
#include <vuthgal.h>

static uint8_t program[1 << 16], line[VUTHGAL_LINE], reply[VUTHGAL_REPLY];

/* Carries out a command, and writes its reply, which may have more bytes than there is room for. */
static uint8_t answer(vuthgal_session *session, const char *command, size_t length) {
  size_t all;
  uint8_t *whole;
  uint8_t status = vuthgal_session_command(session, (const uint8_t *)command, length, reply, sizeof reply, &all);
  if (all <= sizeof reply) {
    fwrite(reply, 1, all, stdout);
    return status;
  }
  whole = (uint8_t *)malloc(all);
  if (!whole) return VUTHGAL_MEMORY;
  status = vuthgal_session_reply(session, whole, all, &all);
  fwrite(whole, 1, all, stdout);
  free(whole);
  return status;
}

int main(int count, char **words) {
  vuthgal_session session = VUTHGAL_SESSION;
  char command[4096];
  size_t length;
  uint8_t status;
  FILE *file = count == 2 ? fopen(words[1], "rb") : NULL;
  if (!file) return 2;
  length = fread(program, 1, sizeof program, file);
  fclose(file);
  status = vuthgal_session_open(&session, program, length, line, sizeof line, &length);
  if (status) fwrite(line, 1, length, stderr);
  while (!status && fgets(command, sizeof command, stdin))
    status = answer(&session, command, strcspn(command, "\n"));
  vuthgal_session_close(&session);
  return status;
}
