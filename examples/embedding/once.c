/* Prints the trace of two threads that meet. From the top of the clone:
 *   cc -I include examples/embedding/once.c lib/libvuthgal.a -o once && ./once
 * With an installed library, where the loader finds it:
 *   cc once.c $(pkg-config --cflags --libs vuthgal) -o once && ./once
 */
#include <stdio.h>
#include <string.h>
#include <vuthgal.h>

int main(void) {
  const char *program = ".phaser p 2\n.thread a main\n.thread b main\nmain: paaa r0 p\nout r0\nhalt\n";
  const char *schedule = "t0 t1 t0*3 t1*2";
  uint8_t trace[4096], line[VUTHGAL_LINE];
  size_t length, line_length;
  uint8_t status = vuthgal_run((const uint8_t *)program, strlen(program), (const uint8_t *)schedule, strlen(schedule),
                               trace, sizeof trace, &length, line, sizeof line, &line_length);
  fwrite(trace, 1, length < sizeof trace ? length : sizeof trace, stdout);
  fwrite(line, 1, line_length < sizeof line ? line_length : sizeof line, stderr);
  return status;
}
