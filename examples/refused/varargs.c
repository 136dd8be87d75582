extern int printk(const char *format, ...);
int hello(int n) { return printk("%d", n); }
