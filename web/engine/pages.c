// The pages of the module's memory, of 64 KiB each. Compiled for wasm64, since x86-64 has no such instructions.
unsigned long pages_held(void) { return __builtin_wasm_memory_size(0); }

// In a memory of 32 bits a refusal is 2^32 - 1, in one of 64 bits 2^64 - 1; no memory has so many pages.
unsigned long pages_more(unsigned long pages) {
  unsigned long old = __builtin_wasm_memory_grow(0, pages);
  return old >= 0xffffffff ? ~0ul : old;
}
