void dsu_transform(void) {
dsu_new_served[0] = dsu_old_served;
dsu_new_served[1] = 0;
}
