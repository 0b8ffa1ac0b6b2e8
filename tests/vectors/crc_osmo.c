/*
 * CRC-32 by libosmocore's generic CRC, for any number of bits.
 *
 * Reads bit lists, one a line, `-` for the empty one; writes `crc BITS HEX` for each.
 * A line that begins with # is handed on.
 *
 * osmo_crc64gen_set_bits takes the bits first to last and writes the register's highest power
 * first, with the polynomial in its usual order, 04C11DB7. The reflected CRC-32 (EDB88320) calls
 * that highest power its place 0, so the bit written at index k weighs 2^k.
 */
#include <stdint.h>
#include <stdio.h>
#include <string.h>

#include <osmocom/core/bits.h>
#include <osmocom/core/crc64gen.h>

#define MOST_BITS 4096

static const struct osmo_crc64gen_code crc_32 = {
	.bits = 32,
	.poly = 0x04C11DB7,
	.init = 0xFFFFFFFF,
	.remainder = 0xFFFFFFFF,
};

static uint32_t check(const ubit_t *bits, int length)
{
	ubit_t places[32];
	uint32_t value = 0;

	osmo_crc64gen_set_bits(&crc_32, bits, length, places);
	for (int k = 0; k < 32; k++)
		value |= (uint32_t)places[k] << k;
	return value;
}

int main(void)
{
	static char line[MOST_BITS + 2];
	static ubit_t bits[MOST_BITS];

	while (fgets(line, sizeof line, stdin)) {
		int length = 0;

		line[strcspn(line, "\n")] = '\0';
		if (line[0] == '#') {
			puts(line);
			continue;
		}
		if (strcmp(line, "-") != 0)
			for (; line[length]; length++)
				bits[length] = line[length] == '1';
		printf("crc %s %08X\n", line, (unsigned)check(bits, length));
	}
	return 0;
}
