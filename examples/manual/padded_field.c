struct flags { unsigned ready : 1; unsigned error : 1; unsigned count : 18; unsigned : 12; };
struct flags flags;
int is_ready(void) { return flags.ready; }
unsigned count(void) { return flags.count; }
