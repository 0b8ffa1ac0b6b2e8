/*
 * Viterbi decoding of k7 by libfec.
 *
 * Reads frames, `KIND CODE SYMBOLS PLANS STATES` on a line, and writes for each a line of bits between
 * commas, one list for each of its STATES, or `?` where libfec has no say: it has no erased values, no
 * other code, and does not start in state 0 for certain.
 *
 * A soft value q goes in as 110 + 5q, which costs that against code bit 0 and 110 + 5(7 - q) against 1.
 * The start in state 0 has only a small advantage, so 16 steps with sure zeros stand in front. A best
 * path whose first 16 bits are 0 is then also the best of all that start the frame in state 0; any
 * other is no answer.
 *
 * libfec has the newest bit of a state lowest, so generators and end states are turned round. Its
 * traceback leaves the last six bits to the end state.
 */
#include <stdio.h>
#include <stdlib.h>
#include <string.h>

#include <fec.h>

#define MOST_STEPS 4096
#define FRONT 16
#define MEMORY 6

static unsigned turned(unsigned state)
{
	unsigned other = 0;

	for (int i = 0; i < MEMORY; i++)
		other |= (state >> i & 1) << (MEMORY - 1 - i);
	return other;
}

static void answer(void *decoder, int length, unsigned state)
{
	static unsigned char packed[(FRONT + MOST_STEPS) / 8 + 2];
	static char bits[FRONT + MOST_STEPS + 1];
	int traced = FRONT + length - MEMORY;
	unsigned end = turned(state);

	chainback_viterbi27(decoder, packed, (unsigned)traced, end);
	for (int i = 0; i < traced; i++)
		bits[i] = '0' + (packed[i / 8] >> (7 - i % 8) & 1);
	for (int i = 0; i < MEMORY; i++)
		bits[traced + i] = '0' + (end >> (MEMORY - 1 - i) & 1);
	bits[FRONT + length] = '\0';
	fputs(strncmp(bits, "0000000000000000", FRONT) != 0 ? "?" : length ? bits + FRONT : "-", stdout);
}

int main(void)
{
	static unsigned char input[2 * (FRONT + MOST_STEPS)];
	int generators[2] = { 0x4f, 0x6d };
	void *decoder = create_viterbi27(FRONT + MOST_STEPS);
	char *line = NULL;
	size_t room = 0;

	if (!decoder)
		return 1;
	set_viterbi27_polynomial(generators);
	while (getline(&line, &room, stdin) > 0) {
		int count = 2 * FRONT, able;
		char *kind = strtok(line, " \n"), *code = strtok(NULL, " \n"), *symbols = strtok(NULL, " \n");
		char *plans = strtok(NULL, " \n"), *states = strtok(NULL, " \n");

		if (!kind || !plans || !states)
			return 1;
		able = strcmp(code, "k7") == 0 && !strchr(symbols, '8');
		memset(input, 110, 2 * FRONT);
		for (char *value = symbols; *value && *value != '-'; value++)
			input[count++] = (unsigned char)(110 + 5 * (*value - '0'));
		init_viterbi27(decoder, 0);
		update_viterbi27_blk(decoder, input, count / 2);
		for (char *state = strtok(states, ","); state; state = strtok(NULL, ",")) {
			if (state != states)
				putchar(',');
			if (able)
				answer(decoder, count / 2 - FRONT, (unsigned)atoi(state));
			else
				putchar('?');
		}
		putchar('\n');
	}
	delete_viterbi27(decoder);
	free(line);
	return 0;
}
