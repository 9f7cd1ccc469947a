#include "dsu.h"
int served = 0;
int rate(int x) { return 2 * x; }
int serve(int x) {
served = served + 1;
dsu_update(7);
int cost = rate(x);
return cost;
}
int main(void) {
int first = serve(10);
client_out(first);
int second = serve(10);
client_out(second);
client_out(served);
return 0;
}
