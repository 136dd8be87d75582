struct big { long a, b, c; };
struct big zeros(void) { struct big b = { 0, 0, 0 }; return b; }
