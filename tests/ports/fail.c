/* Loaded before the C library, this lets the read number FAIL_READ of the program fail, counted from 1, or its write number
   FAIL_WRITE to standard output: once, and those behind it go on. With FAIL_ON all behind it
   fail too. With FAIL_CLOSE each close of a file answers that it failed, though it is closed. */
typedef unsigned long size_t;

int *__errno_location(void);
void *dlsym(void *library, const char *name);
char *getenv(const char *name);
long atol(const char *digits);

enum { IO_FAULT = 5 };

static long reads, writes;

/* whether this call fails, and errno is set */
static int fails(long *calls, const char *name) {
  char *wanted = getenv(name);
  if (!wanted) return 0;
  long number = __atomic_add_fetch(calls, 1, __ATOMIC_SEQ_CST);
  if (number != atol(wanted) && !(getenv("FAIL_ON") && number > atol(wanted))) return 0;
  *__errno_location() = IO_FAULT;
  return 1;
}

long read(int file, void *bytes, size_t count) {
  long (*real)(int, void *, size_t) = dlsym((void *)-1, "read");
  return fails(&reads, "FAIL_READ") ? -1 : real(file, bytes, count);
}

long write(int file, const void *bytes, size_t count) {
  long (*real)(int, const void *, size_t) = dlsym((void *)-1, "write");
  return file == 1 && fails(&writes, "FAIL_WRITE") ? -1 : real(file, bytes, count);
}

int close(int file) {
  int (*real)(int) = dlsym((void *)-1, "close");
  int answer = real(file);
  if (!getenv("FAIL_CLOSE")) return answer;
  *__errno_location() = IO_FAULT;
  return -1;
}

long __write(int file, const void *bytes, size_t count) { return write(file, bytes, count); }
