struct big { long a, b, c; };
long first(struct big b) { return b.a; }
