/* The floor of a replay: reads as many lines and writes as many, each through a buffer of 64 KiB, and does nothing else. */
#include <stdio.h>
#include <string.h>

int main(void)
{
	static char in[65536], out[65536], line[256];

	setvbuf(stdin, in, _IOFBF, sizeof in);
	setvbuf(stdout, out, _IOFBF, sizeof out);
	while (fgets(line, sizeof line, stdin))
		if (fputs("given 1023 1\n", stdout) < 0)
			return 1;
	return fflush(stdout) != 0;
}
