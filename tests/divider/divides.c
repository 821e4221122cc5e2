/* What the look at the archive must find: a divide instruction, and a call of a division routine. */
unsigned long quotient(unsigned long a, unsigned long b) { return a / b; }

unsigned __int128 wide_quotient(unsigned __int128 a, unsigned __int128 b) { return a / b; }
