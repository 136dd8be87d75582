__thread int mine;
int get(void) { return mine; }
