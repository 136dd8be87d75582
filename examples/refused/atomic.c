int users;
int enter(void) { return __sync_fetch_and_add(&users, 1); }
