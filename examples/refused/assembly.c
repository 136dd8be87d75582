void pause(void) { __asm__ volatile("pause"); }
