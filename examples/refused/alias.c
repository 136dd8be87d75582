void one(void) {}
void two(void) __attribute__((alias("one")));
