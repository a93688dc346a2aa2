// The heap alone, for tests/web/parts.js: what shim.c and the host call of it.
#include "../../web/heap.c"

__attribute__((export_name("take"))) byte *test_take(u64 size) { return take(size); }
__attribute__((export_name("give_back"))) void test_give_back(byte *block) { give_back(block); }
__attribute__((export_name("resize"))) byte *test_resize(byte *block, u64 size) { return resize(block, size); }
