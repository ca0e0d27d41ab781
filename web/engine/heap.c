// The memory of the module: what the kit's own C answers on Linux, over blocks of a power of two that are kept by size.
//
// It is compiled for x86-64 into LLVM's intermediate code and moved to wasm64 together with the program, so that both agree
// on how a struct is returned. No proof covers this file.
typedef unsigned long u64;
typedef unsigned char u8;
typedef struct { _Bool ok; u8 *p; } Tried;

extern u8 __heap_base;
u64 pages_held(void);            // pages.c
u64 pages_more(u64 pages);       // pages.c: the old count of pages, or ~0

// A block of class k has 2^k bytes. Its first 16 are the header, so that what is handed out stays aligned to 16: the class,
// and, while the block is free, the next free block of its class.
enum { LEAST = 5, MOST = 34, HEADER = 16 };
static u8 *freed[MOST + 1];
static u64 top, limit;
static u8 nothing[16] __attribute__((aligned(16)));

static u64 class_of(u64 n) {
  u64 k = LEAST;
  while (((u64)1 << k) < n + HEADER) k++;
  return k;
}

// At least so many bytes more between top and limit: 16 MiB at a time, or what is wanted where so much isn't given.
static _Bool widen(u64 size) {
  u64 want = (size - (limit - top) + 65535) >> 16;
  u64 pages = want < 256 ? 256 : want;
  if (pages_more(pages) == ~(u64)0) {
    if (pages == want || pages_more(want) == ~(u64)0) return 0;
    pages = want;
  }
  limit += pages << 16;
  return 1;
}

static u8 *fresh(u64 k) {
  u64 size = (u64)1 << k;
  if (top == 0) {
    top = ((u64)&__heap_base + 15) & ~(u64)15;
    limit = pages_held() << 16;
  }
  if (limit - top < size && !widen(size)) return 0;
  u8 *p = (u8 *)top;
  top += size;
  return p;
}

static u8 *take(u64 n) {
  if (n > (u64)1 << (MOST - 1)) return 0;
  u64 k = class_of(n);
  u8 *p = freed[k];
  if (p) freed[k] = *(u8 **)(p + 8);
  else if (!(p = fresh(k))) return 0;
  *(u64 *)p = k;
  return p + HEADER;
}

static void give(u8 *p) {
  u8 *block = p - HEADER;
  u64 k = *(u64 *)block;
  *(u8 **)(block + 8) = freed[k];
  freed[k] = block;
}

Tried rattle_alloc(u64 n, u64 a) {
  u8 *p = take(n ? n : a);
  return (Tried){p != 0, p ? p : nothing};
}

Tried rattle_realloc(u8 *p, u64 kept, u64 n, u64 a) {
  u64 room = ((u64)1 << *(u64 *)(p - HEADER)) - HEADER;
  u64 want = n ? n : a;
  if (want <= room && want > (room >> 2)) return (Tried){1, p};
  u8 *q = take(want);
  if (!q) return want <= room ? (Tried){1, p} : (Tried){0, nothing};
  __builtin_memcpy(q, p, kept < n ? kept : n);
  give(p);
  return (Tried){1, q};
}

void rattle_dealloc(u8 *p) {
  if (p) give(p);
}
