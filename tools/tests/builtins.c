/* Each pure builtin at each width, by its bits; compiled with -O1, where clang makes builtins of these. */
typedef unsigned char u8;
typedef unsigned short u16;
typedef unsigned u32;
typedef unsigned long u64;

u64 ones8(u8 a) { return (u64)__builtin_popcount(a); }
u64 ones32(u32 a) { return (u64)__builtin_popcount(a); }
u64 ones64(u64 a) { return (u64)__builtin_popcountl(a); }
u64 high32(u32 a) { return (u64)__builtin_clz(a); }
u64 high64(u64 a) { return (u64)__builtin_clzl(a); }
u64 low32(u32 a) { return (u64)__builtin_ctz(a); }
u64 low64(u64 a) { return (u64)__builtin_ctzl(a); }
u64 swap16(u16 a) { return __builtin_bswap16(a); }
u64 swap32(u32 a) { return __builtin_bswap32(a); }
u64 swap64(u64 a) { return __builtin_bswap64(a); }
long size32(int a) { return a < 0 ? -a : a; }
long size64(long a) { return a < 0 ? -a : a; }
u64 less(u64 a, u64 b) { return a < b ? a : b; }
u64 more(u64 a, u64 b) { return a > b ? a : b; }
long least(long a, long b) { return a < b ? a : b; }
long most(long a, long b) { return a > b ? a : b; }
u64 left32(u32 a, u32 n) { return (a << (n & 31)) | (a >> (-n & 31)); }
u64 right64(u64 a, u64 n) { return (a >> (n & 63)) | (a << (-n & 63)); }
u64 take(u64 a, u64 b) { return a > b ? a - b : 0; }
