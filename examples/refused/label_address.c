int go(int n) { void *to[2] = { &&a, &&b }; goto *to[n]; a: return 1; b: return 2; }
