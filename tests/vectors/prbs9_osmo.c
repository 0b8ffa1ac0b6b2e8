/*
 * The sequence of x^9 + x^5 + 1 by libosmocore's osmo_prbs9.
 *
 * Writes `seq START COUNT BITS`: START is the state, oldest bit (place 0) first and newest bit
 * (place 8) last; BITS are the next COUNT newest bits, `-` for none.
 *
 * The generator hides its state behind its output, and nine successive bits of the output are the
 * nine places, oldest first. So every start is found as nine bits of the output, and the bits after
 * them are the answer. That this is the mapping is seen at nine ones, which 0 0 0 0 0 1 1 1 1 0 1
 * have to follow; the driver fails otherwise.
 */
#include <stdio.h>
#include <string.h>

#include <osmocom/core/bits.h>
#include <osmocom/core/prbs.h>

#define STAGES 9
#define PERIOD 511
#define BITS_MADE (3 * PERIOD)

static void write_bits(const ubit_t *bits, int count)
{
	if (count == 0)
		putchar('-');
	for (int k = 0; k < count; k++)
		putchar('0' + bits[k]);
}

/* bits: the start and what follows it */
static void write_case(const ubit_t *bits, int count)
{
	printf("seq ");
	write_bits(bits, STAGES);
	printf(" %d ", count);
	write_bits(bits + STAGES, count);
	putchar('\n');
}

static int find(const ubit_t *bits, const ubit_t *wanted, int count)
{
	for (int at = 0; at < PERIOD; at++)
		if (memcmp(bits + at, wanted, count) == 0)
			return at;
	return -1;
}

int main(void)
{
	static const ubit_t known[] = {1, 1, 1, 1, 1, 1, 1, 1, 1, 0, 0, 0, 0, 0, 1, 1, 1, 1, 0, 1};
	struct osmo_prbs_state generator;
	ubit_t bits[BITS_MADE];
	ubit_t zeros[STAGES + 40];
	int ones;

	osmo_prbs_state_init(&generator, &osmo_prbs9);
	osmo_prbs_get_ubits(bits, BITS_MADE, &generator);
	ones = find(bits, known, sizeof known);
	if (ones < 0) {
		fputs("osmo_prbs9 does not give the known bits after nine ones\n", stderr);
		return 1;
	}

	puts("# a whole period from nine ones");
	write_case(bits + ones, PERIOD);
	puts("# no bits asked for");
	write_case(bits + ones, 0);
	puts("# every start but zeros, 1 to 40 bits");
	for (int at = 0; at < PERIOD; at++)
		write_case(bits + ones + at, 1 + at * 7 % 40);
	puts("# zeros, from the generator's state 0");
	generator.state = 0;
	osmo_prbs_get_ubits(zeros, sizeof zeros, &generator);
	write_case(zeros, 40);
	return 0;
}
