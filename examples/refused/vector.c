typedef int four __attribute__((vector_size(16)));
four zero;
