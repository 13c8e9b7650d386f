/* Brighter: ten steps up, and no further than the lamp can show. */
int least(int a, int b) {
    if (a < b) return a;
    return b;
}

int main(int brightness) {
    return least(brightness + 10, 100);
}
