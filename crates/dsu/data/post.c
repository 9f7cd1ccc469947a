int post_counts(void) {
int before = get();
dsu_force();
put(before + 5, 2);
int times = count();
client_out(times);
int after = get();
return after;
}
