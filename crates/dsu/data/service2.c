int served[2];
int rate(int x) { return 3 * x; }
int serve(int x) {
served[1] = served[1] + 1;
int cost = rate(x);
return cost;
}
int main(void) { return 0; }
