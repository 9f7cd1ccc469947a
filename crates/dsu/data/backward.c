int backward_reads(void) {
int before = get();
dsu_update(1);
int after = get();
assert(before == after);
return after;
}
