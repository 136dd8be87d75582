unsigned swap(unsigned n) { return __builtin_bswap32(n); }
