volatile int ready;
int is_ready(void) { return ready; }
