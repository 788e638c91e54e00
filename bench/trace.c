/* Writes a trace of at least the given number of steps: again and again a client is given 255 ranges of one frame, unmaps them
   all, and one flush lets them go into the magazines, which the next 255 requests are served from. */
#include <stdint.h>
#include <stdio.h>
#include <stdlib.h>

int main(int argc, char **argv)
{
	const uint64_t last = 68719476735, ring = 255;
	uint64_t steps = argc > 1 ? strtoull(argv[1], NULL, 10) : 1000000;

	printf("iovatrace 1 1 %llu 1\nopen 0 dac\n", (unsigned long long)last);
	for (uint64_t flush = 1, step = 1; step < steps; flush++) {
		for (uint64_t i = 0; i < ring && step < steps; i++, step++)
			printf("alloc 0 1 1 %llu\n", (unsigned long long)last);
		for (uint64_t i = 0; i < ring && step < steps; i++, step++)
			printf("unmap 0 1 %llu\n", (unsigned long long)(last - i));
		if (step + 3 > steps)
			break;
		printf("begin\nend %llu ok\ndrain 0 0\n", (unsigned long long)flush);
		step += 3;
	}
	return 0;
}
