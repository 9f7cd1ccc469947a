void dsu_transform(void) { dsu_new_puts = 0; }
