void conform_puts(void) {
dsu_update(1);
if (dsu_updated()) put(7, 3); else put(7);
int after = get();
client_out(after);
}
