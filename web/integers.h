// Integers by their sizes. There is no C library here to have them from.
typedef unsigned char byte;
typedef unsigned short u16;
typedef unsigned int u32;
typedef int i32;
typedef unsigned long u64;
typedef long i64;
typedef unsigned __int128 u128;
