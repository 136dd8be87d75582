struct pair { volatile int a; int b; };
void copy(volatile struct pair *to, volatile struct pair *from) { *to = *from; }
