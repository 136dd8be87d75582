struct flags { unsigned ready : 1; unsigned error : 1; unsigned count : 18; };
struct flags flags;
int is_ready(void) { return flags.ready; }
