int kept = 0;
int puts;
void put(int v, int times) { kept = v; puts = puts + times; }
int get(void) { return kept; }
int count(void) { return puts; }
int main(void) { return 0; }
