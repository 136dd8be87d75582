extern int get();
int twice(int n) { return 2 * get(n); }
