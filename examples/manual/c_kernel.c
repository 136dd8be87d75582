typedef unsigned long u64;
extern void k_slot_tick(void (**slot)(u64 now), u64 now) __asm__("k.slot.tick");
static void (*timer)(u64 now);
void timer_set(void (*fn)(u64 now)) { timer = fn; }
void do_tick(u64 now) { k_slot_tick(&timer, now); }
