/* nothing: an empty program, for what loader and emulator take by themselves. */
int main(void) { return 0; }
