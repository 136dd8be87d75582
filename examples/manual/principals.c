typedef unsigned long u64;
struct ops {
    u64 (*open)(void *who);  /* as the instance that who names */
    u64 (*poke)(void *who);  /* the same */
    u64 (*sum)(void *who);   /* as the shared principal */
    u64 (*tidy)(void *who);  /* as the global principal */
};
extern void *get(u64 n);
extern void set(struct ops *ops);
static u64 *box;    /* what the last instance allocated */
static u64 opened;  /* the module's own global, which each instance may write */
static u64 open_box(void *who) { opened++; box = get(8); return 0; }
static u64 poke_box(void *who) { *box = 1; return 1; }
static u64 sum_box(void *who) { *box = 2; return 2; }
static u64 tidy_box(void *who) { *box = 3; return 3; }
static struct ops ops = { open_box, poke_box, sum_box, tidy_box };
void init(void) { set(&ops); }
