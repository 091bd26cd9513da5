/* Loaded before the C library, this refuses memory and starts of threads.

   Memory: a trial of crates/refused_memory says which of its requests is to be refused by asking for sizes that nothing else
   asks for (crates/refused_memory/src/marks.rt); these are answered here and not counted. All else is the C library's.

   Threads: the start number REFUSE_START, counted from 1, is refused. Where threads that were started still run when the
   program ends, a line on standard error says so: they have a second, since a thread's own end comes a little after what it
   had to do. */
typedef unsigned long size_t;

void *__libc_malloc(size_t size);
void *__libc_calloc(size_t count, size_t size);
void *__libc_realloc(void *block, size_t size);
void __libc_free(void *block);
int *__errno_location(void);
void *dlsym(void *library, const char *name);
char *getenv(const char *name);
long atol(const char *digits);
int usleep(unsigned microseconds);
long write(int file, const void *bytes, size_t count);

enum { NO_MEMORY = 12, TRY_AGAIN = 11 };

/* the sizes of the marks */
enum { REFUSE_ONE = 7000000, REFUSE_ALL = 7100000, END = 7200000, COUNT = 7200001, COMPARE = 7200002 };

/* requests since the last mark that began a trial; those between these two are refused */
static long asked, first_refused = __LONG_MAX__, last_refused;
static long was_refused;

/* blocks in use now, and those that were when they were counted */
static long blocks, counted;

static int is_refused(void) {
  long number = __atomic_add_fetch(&asked, 1, __ATOMIC_SEQ_CST);
  if (number < first_refused || number > last_refused) return 0;
  __atomic_store_n(&was_refused, 1, __ATOMIC_SEQ_CST);
  return 1;
}

static void begin(long first, long last) {
  asked = was_refused = 0;
  last_refused = last;
  first_refused = first;
}

/* what a mark asks for is done; whether it is answered by a refusal */
static int answer(size_t mark) {
  if (mark < REFUSE_ALL) {
    begin(mark - REFUSE_ONE, mark - REFUSE_ONE);
    return 1;
  }
  if (mark < END) {
    begin(mark - REFUSE_ALL, __LONG_MAX__);
    return 1;
  }
  if (mark == COUNT) {
    counted = blocks;
    return 1;
  }
  if (mark == COMPARE) return blocks != counted;
  first_refused = __LONG_MAX__;
  return was_refused;
}

/* the C library's caller looks at errno: without it a refused start of a thread ends the program */
static void *refused(void) {
  *__errno_location() = NO_MEMORY;
  return 0;
}

static void *given(void *block) {
  if (block) __atomic_add_fetch(&blocks, 1, __ATOMIC_SEQ_CST);
  return block;
}

void *malloc(size_t size) {
  if (size >= REFUSE_ONE && size <= COMPARE) return answer(size) ? refused() : given(__libc_malloc(1));
  return is_refused() ? refused() : given(__libc_malloc(size));
}

void *calloc(size_t count, size_t size) { return is_refused() ? refused() : given(__libc_calloc(count, size)); }

void *realloc(void *block, size_t size) {
  if (is_refused()) return refused();
  void *moved = __libc_realloc(block, size);
  return block ? moved : given(moved);
}

void free(void *block) {
  if (block) __atomic_sub_fetch(&blocks, 1, __ATOMIC_SEQ_CST);
  __libc_free(block);
}

/* starts so far, and threads that were started and have not ended */
static long starts, running;

struct work {
  void *(*routine)(void *);
  void *argument;
};

static void *worked(void *given) {
  struct work work = *(struct work *)given;
  __libc_free(given);
  void *result = work.routine(work.argument);
  __atomic_sub_fetch(&running, 1, __ATOMIC_SEQ_CST);
  return result;
}

int pthread_create(void *thread, const void *attributes, void *(*routine)(void *), void *argument) {
  int (*start)(void *, const void *, void *(*)(void *), void *) = dlsym((void *)-1, "pthread_create");
  char *wanted = getenv("REFUSE_START");
  if (__atomic_add_fetch(&starts, 1, __ATOMIC_SEQ_CST) == (wanted ? atol(wanted) : 0)) return TRY_AGAIN;
  struct work *work = __libc_malloc(sizeof(struct work));
  if (!work) return TRY_AGAIN;
  work->routine = routine;
  work->argument = argument;
  __atomic_add_fetch(&running, 1, __ATOMIC_SEQ_CST);
  int fault = start(thread, attributes, worked, work);
  if (fault) __atomic_sub_fetch(&running, 1, __ATOMIC_SEQ_CST);
  return fault;
}

__attribute__((constructor)) static void at_the_start(void) {
  char *one = getenv("REFUSE_REQUEST"), *from = getenv("REFUSE_FROM");
  if (one) begin(atol(one), atol(one));
  if (from) begin(atol(from), __LONG_MAX__);
}

static void look(void) {
  static const char line[] = "threads still run\n";
  for (int waited = 0; waited < 1000 && __atomic_load_n(&running, __ATOMIC_SEQ_CST) > 0; waited++) usleep(1000);
  if (__atomic_load_n(&running, __ATOMIC_SEQ_CST) > 0) (void)!write(2, line, sizeof line - 1);
  if ((getenv("REFUSE_REQUEST") || getenv("REFUSE_FROM")) && !was_refused) (void)!write(3, "none\n", 5);
}

__attribute__((destructor)) static void at_the_end(void) { look(); }

void _exit(int status) {
  void (*end)(int) = dlsym((void *)-1, "_exit");
  look();
  end(status);
  __builtin_unreachable();
}
