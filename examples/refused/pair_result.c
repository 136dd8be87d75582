struct pair { long a, b; };
struct pair both(long n) { struct pair p = { n, n }; return p; }
