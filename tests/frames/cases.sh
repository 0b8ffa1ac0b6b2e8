# The inputs and the lines that are printed for them, as the rules give them: check NAME INPUT LINE..
# In an input \n, \r, \t and \0 with three octal digits stand for bytes. Sourced by run.sh.

# first lines
check empty '' \
    '     0   1'
check first_other 'k7\nsa\n 136\n' \
    '     0   1'
check first_longer 'k33\nsa\n 136\n' \
    '     0   1'
check first_short 'k\n' \
    '     0   1'
check first_blank_after 'k3 \nsa\n 136\n' \
    '     0   1'
check first_blank_before ' k3\n' \
    '     0   1'
check first_upper 'K3\n' \
    '     0   1'
check first_empty_line '\nk3\nsa\n 136\n' \
    '     0   1'
check first_cr 'k3\r\nsa\r\n 136\r\n' \
    '     0   1'
check first_nul 'k3\0000\nsa\n 136\n' \
    '     0   1'
check first_cr_alone 'k3\rsa\r 136\r' \
    '     0   1'
check k3_no_end 'k3' \
    '     0   0 '
check k3_alone 'k3\n' \
    '     0   0 '

# the example, and its line ends
check example 'k3\nssjssjja\n 136 120 136 136\n' \
    '     4     3   0     0' '     0   0 1000'
check example_no_end 'k3\nssjssjja\n 136 120 136 136' \
    '     4     3   0     0' '     0   0 1000'
check blank_line_after 'k3\nsa\n 136\n\n' \
    '     1     0   0     0' '     0     0   0     0' '     0   0 0'
check two_blank_lines_after 'k3\nsa\n 136\n\n\n' \
    '     1     0   0     0' '     0     0   0     0' '     0   0 0'
check three_blank_lines_after 'k3\nsa\n 136\n\n\n\n' \
    '     1     0   0     0' '     0     0   0     0' '     0     0   0     0' '     0   0 0'
check symbols_missing_for_a_plan 'k3\nsa\n' \
    '     0     0   8     0' '     0   0 '
check symbols_missing_no_end 'k3\nsa' \
    '     0     0   8     0' '     0   0 '
check symbols_missing_after_good 'k3\nsa\n 136\nsa\n' \
    '     1     0   0     0' '     0     0   8     0' '     0   0 0'
check plan_empty 'k3\n\n\n' \
    '     0     0   0     0' '     0   0 '
check plan_empty_symbols_missing 'k3\n\n' \
    '     0     0   0     0' '     0   0 '
check plan_empty_with_symbol 'k3\n\n 136\n' \
    '     0     0   8     0' '     0   0 '
check symbols_empty_for_a_plan 'k3\nsa\n\nsa\n   0\n' \
    '     0     0   8     0' '     1     0   0     0' '     0   0 0'

# carriage returns and other bytes
check cr_in_plan 'k3\nsa\r\n 136\n' \
    '     0     0   5     2' '     0   0 '
check cr_in_symbols 'k3\nsa\n 136\r\n' \
    '     0     0  13     1' '     0   0 '
check cr_fills_a_field 'k3\nsa\n 13\r\n' \
    '     0     0  13     0' '     0   0 '
check non_ascii_plan 'k3\ns\0303\0251a\n 136\n' \
    '     0     0   5     1' '     0   0 '
check non_ascii_symbols 'k3\nsa\n 13\0377\n' \
    '     0     0  13     0' '     0   0 '
check non_ascii_digit 'k3\nsa\n 1\0331\0243\n' \
    '     0     0  13     0' '     0   0 '
check nul_in_plan 'k3\ns\0000a\n 136\n' \
    '     0     0   5     1' '     0   0 '
check nul_in_field 'k3\nsa\n\0000  0\n' \
    '     0     0  13     0' '     0   0 '

# lengths of lines
check plan_200 'k3\n'"$(repeat 200 's')"'\n'"$(repeat 50 ' 136')"'\n' \
    '     0     0   8     0' '     0   0 '
check plan_201 'k3\n'"$(repeat 201 's')"'\n'"$(repeat 50 ' 136')"'\n' \
    '     0     0  13     0' '     0   0 '
check plan_201_before_fields 'k3\n'"$(repeat 201 's')"'\n 136 1x6\n' \
    '     0     0  13     0' '     0   0 '
check symbols_200 'k3\n'"$(repeat 50 'sa')"'\n'"$(repeat 50 '   0')"'\n' \
    '    50     0   0     0' '     0   0 '"$(repeat 50 '0')"
check symbols_201 'k3\n'"$(repeat 50 'sa')"'\n'"$(repeat 50 '   0')"'0\n' \
    '     0     0  13     0' '     0   0 '
check symbols_204 'k3\n'"$(repeat 51 'sa')"'\n'"$(repeat 51 '   0')"'\n' \
    '     0     0  13     0' '     0   0 '
check symbols_201_before_fields 'k3\nsa\n'"$(repeat 50 ' 13x')"'0\n' \
    '     0     0  13     0' '     0   0 '
check symbols_199 'k3\n'"$(repeat 50 'sa')"'\n'"$(repeat 49 '   0')"'   \n' \
    '     0     0  13    49' '     0   0 '
check symbols_200_last_bad 'k3\n'"$(repeat 50 'sa')"'\n'"$(repeat 49 '   0')"'  0x\n' \
    '     0     0  13    49' '     0   0 '
check plan_200_letter_last 'k3\n'"$(repeat 199 's')"'x\n'"$(repeat 50 ' 136')"'\n' \
    '     0     0   5   199' '     0   0 '

# fields
check field_short_alone 'k3\nsa\n136\n' \
    '     0     0  13     0' '     0   0 '
check field_short_last 'k3\nsasa\n 136 13\n' \
    '     0     0  13     1' '     0   0 '
check field_one_digit_short 'k3\nsa\n0\n' \
    '     0     0  13     0' '     0   0 '
check field_blank 'k3\nsa\n    \n' \
    '     0     0  13     0' '     0   0 '
check field_blank_in_the_middle 'k3\nsasasa\n 136     136\n' \
    '     0     0  13     1' '     0   0 '
check field_signed_plus 'k3\nsa\n+136\n' \
    '     0     0  13     0' '     0   0 '
check field_signed_minus 'k3\nsa\n  -1\n' \
    '     0     0  13     0' '     0   0 '
check field_left 'k3\nsa\n136 \n' \
    '     0     0  13     0' '     0   0 '
check field_gap 'k3\nsa\n1 36\n' \
    '     0     0  13     0' '     0   0 '
check field_tab 'k3\nsa\n\t136\n' \
    '     0     0  13     0' '     0   0 '
check field_hex 'k3\nsa\n0x88\n' \
    '     0     0  13     0' '     0   0 '
check field_point 'k3\nsa\n 1.0\n' \
    '     0     0  13     0' '     0   0 '
check field_slash 'k3\nsa\n  1/\n' \
    '     0     0  13     0' '     0   0 '
check field_colon 'k3\nsa\n  1:\n' \
    '     0     0  13     0' '     0   0 '
check field_overlong 'k3\nsasa\n  136 136\n' \
    '     0     0  13     1' '     0   0 '
check field_zeros_before 'k3\nsasa\n01360000\n' \
    '     2     0   0     0' '     0   0 00'
check field_full_width 'k3\nsa\n9999\n' \
    '     0     0   2     0' '     0   0 '
check field_first_bad_counts 'k3\nsasasa\n 136 1x6 1y6\n' \
    '     0     0  13     1' '     0   0 '
check field_before_plan 'k3\nxx\n 13x\n' \
    '     0     0  13     0' '     0   0 '

# plans
check letter 'k3\nsxa\n 136\n' \
    '     0     0   5     1' '     0   0 '
check letter_upper 'k3\nSA\n 136\n' \
    '     0     0   5     0' '     0   0 '
check letter_blank 'k3\nsa \n 136\n' \
    '     0     0   5     2' '     0   0 '
check letter_before_standing 'k3\njs?\n 136\n' \
    '     0     0   5     2' '     0   0 '
check join_of_none 'k3\njsa\n 136\n' \
    '     0     0   6     0' '     0   0 '
check join_of_one 'k3\nsja\n 136\n' \
    '     0     0   6     1' '     0   0 '
check apply_of_none 'k3\nas\n 136\n' \
    '     0     0   6     0' '     0   0 '
check apply_of_two 'k3\nssa\n 136 136\n' \
    '     0     0   6     2' '     0   0 '
check apply_twice 'k3\nsaa\n 136\n' \
    '     0     0   6     2' '     0   0 '
check standing_before_unfinished 'k3\nssa\n 136\n' \
    '     0     0   6     2' '     0   0 '
check left_standing 'k3\nss\n 136 136\n' \
    '     0     0   8     0' '     0   0 '
check left_one_standing 'k3\ns\n 136\n' \
    '     0     0   8     0' '     0   0 '
check symbols_left 'k3\nsa\n 136 136\n' \
    '     0     0   8     0' '     0   0 '
check symbols_wanted 'k3\nsasa\n 136\n' \
    '     0     0   8     0' '     0   0 '
check unfinished_before_symbol 'k3\nsa\n 136 144\n' \
    '     0     0   8     0' '     0   0 '
check block_32 'k3\n'"$(repeat 32 's')""$(repeat 31 'j')"'a\n'"$(repeat 32 ' 136')"'\n' \
    '    32    31   0     0' '     0   0 '"$(repeat 32 '0')"
check block_33 'k3\n'"$(repeat 33 's')""$(repeat 32 'j')"'a\n'"$(repeat 33 ' 136')"'\n' \
    '     0     0   7    64' '     0   0 '
check block_33_left 'k3\ns'"$(repeat 32 'sj')"'a\n'"$(repeat 33 ' 136')"'\n' \
    '     0     0   7    64' '     0   0 '
check block_before_unfinished 'k3\n'"$(repeat 33 's')""$(repeat 32 'j')"'\n'"$(repeat 33 ' 136')"'\n' \
    '     0     0   7    64' '     0   0 '
check standing_before_block 'k3\n'"$(repeat 33 's')""$(repeat 33 'j')"'\n'"$(repeat 33 ' 136')"'\n' \
    '     0     0   6    65' '     0   0 '
check block_33_second 'k3\nsa'"$(repeat 33 's')""$(repeat 32 'j')"'a\n'"$(repeat 34 ' 136')"'\n' \
    '     0     0   7    66' '     0   0 '
check two_blocks 'k3\nssjassja\n 136 136 136 136\n' \
    '     4     2   0     0' '     0   0 0000'

# symbols
check symbol_9 'k3\nsasa\n 136   9\n' \
    '     0     0   2     1' '     0   0 '
check symbol_137 'k3\nsa\n 137\n' \
    '     0     0   2     0' '     0   0 '
check symbol_144 'k3\nsa\n 144\n' \
    '     0     0   2     0' '     0   0 '
check symbol_128 'k3\nsa\n 128\n' \
    '     1     0   0     0' '     0   0 0'
check symbol_first_bad_counts 'k3\nsasasa\n 136 144   9\n' \
    '     0     0   2     1' '     0   0 '

# a refused delivery leaves the frame as it was
check refused_between 'k3\nssjssjja\n 136 120 136 136\nsx\n 136\nsasa\n 136 9\nsasa\n   0   0\n' \
    '     4     3   0     0' '     0     0   5     1' '     0     0  13     1' '     2     0   0     0' '     0   0 100000'

# costs and ties, to state 0

# one symbol leads to state 0 by bit 0 alone, whose branch has code bits 0 0
check cost_one_1 'k3\nsa\n 112\n' \
    '     1     0   0     0' '     7   0 0'
check cost_one_2 'k3\nsa\n   7\n' \
    '     1     0   0     0' '     7   0 0'
check cost_one_both 'k3\nsa\n 119\n' \
    '     1     0   0     0' '    14   0 0'
check cost_one_soft 'k3\nsa\n  52\n' \
    '     1     0   0     0' '     7   0 0'
check cost_one_erased 'k3\nsa\n  56\n' \
    '     1     0   0     0' '     3   0 0'

# bits 1 0 0 have code bits 11 10 11: from state 0 to 2 to 1 to 0
check impulse 'k3\nsasasa\n 119 112 119\n' \
    '     3     0   0     0' '     0   0 100'
check impulse_joined 'k3\nssjsja\n 119 112 119\n' \
    '     3     2   0     0' '     0   0 100'
check impulse_in_three 'k3\nsa\n 119\nsa\n 112\nsa\n 119\n' \
    '     1     0   0     0' '     1     0   0     0' '     1     0   0     0' '     0   0 100'

# bits 000 cost 14 + 7 + 0, bits 100 cost 0 + 0 + 14: 14 is less than 21
check impulse_broken 'k3\nsasasa\n 119 112   0\n' \
    '     3     0   0     0' '    14   0 100'

# bits 000 cost 14 + 0 + 0, bits 100 cost 0 + 7 + 14
check one_error 'k3\nsasasa\n 119   0   0\n' \
    '     3     0   0     0' '    14   0 000'

# bits 000 cost 7 + 7 + 7, bits 100 cost 7 + 0 + 7
check two_errors 'k3\nsasasa\n 112 112   7\n' \
    '     3     0   0     0' '    14   0 100'

# bits 000 cost 14 + 0 + 0, bits 100 cost 0 + 0 + 14: equal, and 000 has the 0 at the one bit that differs
check tie_to_zeros 'k3\nsasasa\n 119 128   0\n' \
    '     3     0   0     0' '    14   0 000'

# bits 0100 and 1100 alone have code bits 11 in the fourth place
check tie_in_the_first_bit 'k3\nsasasasa\n 136 136 136 119\n' \
    '     4     0   0     0' '     0   0 0100'

# bits 1000 and 0100 have a 1 there: 1000 has the 0 at the later of the two bits that differ
check tie_in_two_bits 'k3\nsasasasa\n 136 120 136 136\n' \
    '     4     0   0     0' '     0   0 1000'
