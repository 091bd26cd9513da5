/*
 * The heap of vuthgal.wasm. On Linux the kit's own C asks malloc for each block; here the blocks are in the module's memory. No proof
 * covers this file, and all calls rest on it.
 *
 * A block has 2^KIND bytes. The first 16 say its kind, and the rest is its room, which begins at a multiple of 16. A block that was
 * given back is the first of its kind to be taken again. Blocks are neither split nor joined, and the memory never gets smaller. So a
 * room takes at most twice its bytes and 32 more, and what a call gives back is there for the next one.
 */
typedef __SIZE_TYPE__ size_t;
typedef unsigned char byte;

typedef struct block {
  size_t kind;
  struct block *next; /* of a block that was given back: the one that was given back before it */
} block;

/* What a request came to, as the kit has it: whether there is a block, and its room. */
typedef struct {
  size_t ok;
  byte *room;
} tried;

enum { SMALLEST = 5, LARGEST = 30, PAGE = 65536 };

/* Where the linker's own data ends. */
extern byte __heap_base;

/* What a refused request has for a room. As on Linux, it isn't null. */
static byte nothing;

/* Where the blocks end, or 0 before the first one. */
static size_t end;

/* The blocks that were given back, by kind. */
static block *given_back[LARGEST + 1];

/* The kind of a block with room for so many bytes: at most 2^LARGEST - 16. */
static size_t kind_of(size_t size) {
  size_t kind = SMALLEST;
  while (((size_t)1 << kind) - sizeof(block) < size) kind++;
  return kind;
}

/* Whether the memory reaches so far, perhaps after it has grown. What the engine returns is not relied on: the size is. */
static int reaches(size_t far) {
  size_t size = __builtin_wasm_memory_size(0) * PAGE;
  if (far <= size) return 1;
  __builtin_wasm_memory_grow(0, (far - size + PAGE - 1) / PAGE);
  return far <= __builtin_wasm_memory_size(0) * PAGE;
}

/* Takes a room of at least so many bytes, or null. */
static byte *take(size_t size) {
  if (size > ((size_t)1 << LARGEST) - sizeof(block)) return 0;
  size_t kind = kind_of(size);
  block *taken = given_back[kind];
  if (taken) {
    given_back[kind] = taken->next;
  } else {
    size_t at = end ? end : ((size_t)&__heap_base + 15) & ~(size_t)15;
    if (!reaches(at + ((size_t)1 << kind))) return 0;
    end = at + ((size_t)1 << kind);
    taken = (block *)at;
    taken->kind = kind;
  }
  return (byte *)(taken + 1);
}

static void give(byte *room) {
  block *back = (block *)room - 1;
  back->next = given_back[back->kind];
  given_back[back->kind] = back;
}

static tried answer(byte *room) {
  return (tried){room != 0, room ? room : &nothing};
}

/* The three requests of the proved code. An alignment divides 16. A size of 0 has a room, too. */
tried rattle_alloc(size_t size, size_t alignment) {
  return answer(take(size ? size : alignment));
}

/* The first KEPT bytes stay as they are. If the request is refused, all is as it was. */
tried rattle_realloc(byte *room, size_t kept, size_t size, size_t alignment) {
  size_t needed = size ? size : alignment;
  size_t has = ((size_t)1 << ((block *)room - 1)->kind) - sizeof(block);
  if (needed <= has && needed > has / 4) return answer(room);
  byte *other = take(needed);
  if (!other) return answer(other);
  __builtin_memcpy(other, room, kept);
  give(room);
  return answer(other);
}

void rattle_dealloc(byte *room) {
  give(room);
}

/* What JavaScript takes for inputs and outputs: a room of so many bytes, or null. */
byte *room(size_t size) {
  return take(size);
}

void room_back(byte *taken) {
  give(taken);
}
