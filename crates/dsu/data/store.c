int kept = 0;
void put(int v) { kept = v; }
int get(void) { return kept; }
int main(void) { return 0; }
