__attribute__((weak)) extern void maybe(void);
int is_there = 1;
int has(void) { return maybe != 0; }
