/* What libvuthgal.so.2 does as it is loaded: on a processor below x86-64-v2, whose instructions the library needs, it says so and ends
   the process with status 1. Without this the first call would end it by a signal. bin/program links it. */
#include <cpuid.h>
#include <unistd.h>

#ifndef NEEDED
/* in ecx of leaf 1: SSE3, SSSE3, CMPXCHG16B, SSE4.1, SSE4.2, POPCNT */
#define NEEDED (1u << 0 | 1u << 9 | 1u << 13 | 1u << 19 | 1u << 20 | 1u << 23)
#endif

__attribute__((constructor)) static void check_processor(void) {
  static const char line[] = "libvuthgal: this processor lacks a feature of x86-64-v2, which the library needs\n";
  unsigned a, b, c, d;
  if (__get_cpuid(1, &a, &b, &c, &d) && (c & NEEDED) == NEEDED) return;
  if (write(2, line, sizeof line - 1) < 0) _exit(1);
  _exit(1);
}
