int last(int n) { char bytes[n]; bytes[n - 1] = 1; return bytes[n - 1]; }
