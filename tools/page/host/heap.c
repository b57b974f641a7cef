// The heap of the module: blocks of eight sizes for each doubling, and those that are freed in lists. Not proved.
typedef unsigned long u64;
extern unsigned char __heap_base;
struct Head { u64 kind; struct Head *next; };
struct Got { u64 is_had; void *at; };
enum { KINDS = 512 };
static u64 top;
static struct Head *freed[KINDS];

void *memcpy(void *, const void *, u64);

// The number of a size of 32 bytes or more, and the size of a number: eight of them for each doubling.
static u64 kind_of(u64 size) {
  if (size <= 32) return 0;
  u64 last = size - 1, bits = 63 - (u64)__builtin_clzl(last), part = (last >> (bits - 3)) & 7;
  return (bits - 5) * 8 + part + 1;
}
static u64 size_of(u64 kind) {
  if (!kind) return 32;
  u64 before = kind - 1;
  return (9 + (before & 7)) << ((before >> 3) + 2);
}

void *take(u64 size) {
  u64 kind = kind_of(size + sizeof(struct Head));
  struct Head *block = freed[kind];
  if (block) {
    freed[kind] = block->next;
    return block + 1;
  }
  if (!top) top = ((u64)&__heap_base + 15) & ~15ul;
  u64 end = top + ((size_of(kind) + 15) & ~15ul), room = __builtin_wasm_memory_size(0) << 16;
  if (end < top) return 0;
  if (end > room) {
    // more than is asked for, so that growing is rare
    u64 pages = (end - room + 65535) >> 16, more = room >> 18;
    if (__builtin_wasm_memory_grow(0, pages + more) == (u64)-1
        && __builtin_wasm_memory_grow(0, pages) == (u64)-1) return 0;
  }
  block = (struct Head *)top;
  top = end;
  block->kind = kind;
  return block + 1;
}
void give(void *at) {
  if ((u64)at < 4096) return;
  struct Head *block = (struct Head *)at - 1;
  block->next = freed[block->kind];
  freed[block->kind] = block;
}

static u64 wanted(u64 size, u64 align) { return size ? size : align; }
struct Got rattle_alloc(u64 size, u64 align) {
  void *at = take(wanted(size, align));
  return (struct Got){at != 0, at ? at : (void *)16};
}
struct Got rattle_realloc(void *at, u64 old, u64 size, u64 align) {
  u64 has = size_of(((struct Head *)at - 1)->kind) - sizeof(struct Head), asked = wanted(size, align);
  if (asked <= has) return (struct Got){1, at};
  void *to = take(asked);
  if (!to) return (struct Got){0, (void *)16};
  memcpy(to, at, old < has ? old : has);
  give(at);
  return (struct Got){1, to};
}
void rattle_dealloc(void *at) { give(at); }
