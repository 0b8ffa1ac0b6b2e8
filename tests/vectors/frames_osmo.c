/*
 * Viterbi decoding by libosmocore's portable decoder, to any end state.
 *
 * Reads frames, `KIND CODE SYMBOLS PLANS STATES` on a line, and writes for each a line of answers
 * between commas, one for each of its STATES: `STATE:COST:BITS`, or `STATE:absent` where no path ends.
 *
 * The code's tables number the states as the frames do: input bit u in state s makes the register
 * R = u * S + s, and the next state is R / 2. Of two paths that meet at equal cost the decoder keeps
 * the one from the lower state, whose dropped bit is 0.
 *
 * A soft value q goes in as 14 - 4q, an erased one as 0. The decoder squares the distances to 127 and
 * -127 and shifts by 9, which makes 24 + 2q against code bit 0 and 24 + 2(7 - q) against 1, and nothing
 * for an erased value. So a cost is half of what its metric has above 24 for each value not erased.
 */
#include <stdint.h>
#include <stdio.h>
#include <stdlib.h>
#include <string.h>

#include <osmocom/core/conv.h>

#define MOST_STATES 64
#define MOST_STEPS 4096
#define OFFSET 24
#define NO_PATH 0x00ffffff

struct tables {
	uint8_t output[MOST_STATES][2];
	uint8_t state[MOST_STATES][2];
	struct osmo_conv_code code;
};

static struct tables k3, k7;

static void fill(struct tables *tables, int constraint, unsigned first, unsigned second)
{
	unsigned states = 1u << (constraint - 1);

	for (unsigned s = 0; s < states; s++)
		for (unsigned u = 0; u < 2; u++) {
			unsigned reg = u * states + s;

			tables->output[s][u] = (uint8_t)(__builtin_parity(reg & first) << 1 | __builtin_parity(reg & second));
			tables->state[s][u] = (uint8_t)(reg / 2);
		}
	tables->code.N = 2;
	tables->code.K = constraint;
	tables->code.next_output = (const uint8_t (*)[2])tables->output;
	tables->code.next_state = (const uint8_t (*)[2])tables->state;
}

static void answer(struct osmo_conv_decoder *decoder, int length, unsigned offsets, int state)
{
	static ubit_t bits[MOST_STEPS];
	int metric;

	if (decoder->ae[state] >= NO_PATH) {
		printf("%d:absent", state);
		return;
	}
	metric = osmo_conv_decode_get_output(decoder, bits, 0, state);
	if (metric != (int)decoder->ae[state] || (metric - (int)offsets) % 2 != 0)
		exit(1);
	printf("%d:%d:%s", state, (metric - (int)offsets) / 2, length ? "" : "-");
	for (int i = 0; i < length; i++)
		putchar('0' + bits[i]);
}

int main(void)
{
	static sbit_t input[2 * MOST_STEPS];
	char *line = NULL;
	size_t room = 0;

	fill(&k3, 3, 07, 05);
	fill(&k7, 7, 0171, 0133);
	while (getline(&line, &room, stdin) > 0) {
		struct osmo_conv_decoder decoder;
		unsigned offsets = 0;
		int length = 0;
		char *kind = strtok(line, " \n"), *code = strtok(NULL, " \n"), *symbols = strtok(NULL, " \n");
		char *plans = strtok(NULL, " \n"), *states = strtok(NULL, " \n");

		if (!kind || !plans || !states)
			return 1;
		for (char *value = symbols; *value && *value != '-'; value++, length++) {
			input[length] = *value == '8' ? 0 : (sbit_t)(14 - 4 * (*value - '0'));
			offsets += *value == '8' ? 0 : OFFSET;
		}
		length /= 2;
		osmo_conv_decode_init(&decoder, strcmp(code, "k3") == 0 ? &k3.code : &k7.code, length, 0);
		osmo_conv_decode_scan(&decoder, input, length);
		for (char *state = strtok(states, ","); state; state = strtok(NULL, ",")) {
			if (state != states)
				putchar(',');
			answer(&decoder, length, offsets, atoi(state));
		}
		putchar('\n');
		osmo_conv_decode_deinit(&decoder);
	}
	free(line);
	return 0;
}
