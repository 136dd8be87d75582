typedef unsigned long u64;
struct timer { void (*tick)(u64 now); };
extern void timer_set(void (*fn)(u64 now));
static u64 last;
static void on_tick(u64 now) { last = now; }
static struct timer timer = { on_tick };               /* here on_tick gets its slot type */
void start(void) { timer_set(timer.tick); }
void wild(void) { timer_set((void (*)(u64))0x10070); } /* do_tick, which was never handed out */
u64 read_last(void) { return last; }
