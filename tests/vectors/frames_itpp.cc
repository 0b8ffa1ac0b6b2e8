/*
 * Viterbi decoding by IT++, to any end state.
 *
 * Reads frames, `KIND CODE SYMBOLS PLANS STATES` on a line, and writes for each a line of bits between
 * commas, one list for each of its STATES, or `?` for a frame of no symbols.
 *
 * A soft value q goes in as 7 - 2q, an erased one as 0. IT++ decodes to state 0 after a tail of K - 1
 * zeros, so each end state gets a tail that its own code bits make, far louder than the frame: any
 * other end would cost more than the whole frame. All numbers are whole, so nothing is rounded.
 *
 * Of paths of equal cost IT++ does not keep the one that libosmocore keeps; compare_frames.py weighs
 * the paths, and not the bits.
 */
#include <cstdlib>
#include <iostream>
#include <sstream>
#include <string>

#include <itpp/itcomm.h>

using namespace itpp;

static const double LOUD = 1048576;

struct Code {
	int constraint;
	unsigned generators[2];
	Convolutional_Code decoder;

	Code(int constraint, unsigned first, unsigned second) : constraint(constraint), generators{ first, second }
	{
		ivec polynomials(2);

		polynomials(0) = (int)first;
		polynomials(1) = (int)second;
		decoder.set_generator_polynomials(polynomials, constraint);
	}

	/* The code bits of one input bit after another, from a state on. */
	std::string encode(unsigned state, const std::string &inputs) const
	{
		std::string bits;

		for (char input : inputs) {
			unsigned reg = (unsigned)(input - '0') << (constraint - 1) | state;

			for (unsigned generator : generators)
				bits += (char)('0' + __builtin_parity(reg & generator));
			state = reg / 2;
		}
		return bits;
	}

	/* Does IT++ encode as this does? */
	bool is_encoded_alike(const std::string &inputs)
	{
		bvec given((int)inputs.size()), found;

		for (size_t i = 0; i < inputs.size(); i++)
			given((int)i) = bin(inputs[i] - '0');
		decoder.encode_trunc(given, found);
		std::string wanted = encode(0, inputs);
		for (size_t i = 0; i < wanted.size(); i++)
			if (found((int)i) != bin(wanted[i] - '0'))
				return false;
		return found.size() == (int)wanted.size();
	}

	std::string decode(const std::string &symbols, unsigned state)
	{
		std::string tail = encode(state, std::string((size_t)constraint - 1, '0'));
		vec signal((int)(symbols.size() + tail.size()));
		bvec found;
		int place = 0;

		for (char value : symbols)
			signal(place++) = value == '8' ? 0 : 7 - 2 * (value - '0');
		for (char bit : tail)
			signal(place++) = bit == '0' ? LOUD : -LOUD;
		decoder.decode_tail(signal, found);
		std::string bits;
		for (int i = 0; i < found.size(); i++)
			bits += found(i) == bin(1) ? '1' : '0';
		return bits;
	}
};

int main()
{
	Code k3(3, 07, 05), k7(7, 0171, 0133);
	std::string line;

	if (!k3.is_encoded_alike("100110100") || !k7.is_encoded_alike("10000001101000000")) {
		std::cerr << "IT++ has another code\n";
		return 1;
	}
	while (std::getline(std::cin, line)) {
		std::istringstream fields(line);
		std::string kind, code, symbols, plans, states, state;

		fields >> kind >> code >> symbols >> plans >> states;
		std::istringstream list(states);
		for (bool first = true; std::getline(list, state, ','); first = false) {
			std::cout << (first ? "" : ",");
			if (symbols == "-")
				std::cout << "?";
			else
				std::cout << (code == "k3" ? k3 : k7).decode(symbols, (unsigned)std::atoi(state.c_str()));
		}
		std::cout << "\n";
	}
	return 0;
}
