\\ Path counts by PARI/GP: reads the `count` and `paths` lines of the file that the environment
\\ variable COUNT_LINES names, and writes each line's VALUE, worked out anew from its other fields.
\\
\\ The matrices come from the rule for places rather than from a running encoder: a branch goes from
\\ state i to state j when j mod 2^(K-2) = i \ 2; its input bit is j \ 2^(K-2), and its code bits are
\\ the parities of the ones common to (input bit) * 2^(K-1) + i and the generators. The plan's letters
\\ are followed with matrices modulo 2^32.

\\ K and the two generators
code(name) = if(name == "k3", [3, fromdigits([7], 8), fromdigits([5], 8)], name == "k7", [7, fromdigits([1, 7, 1], 8), fromdigits([1, 3, 3], 8)], error("no such code: ", name));

parity(n) = hammingweight(n) % 2;

\\ whether the soft value goes with the code bit; 8 is erased
admits(q, bit) = q == 8 || (bit == 0 && q <= 3) || (bit == 1 && q >= 4);

\\ 1 if an admitted branch goes from state i to state j, else 0
entry(c, y, i, j) =
{
  my(half = 2^(c[1] - 2), r);
  if(j % half != i \ 2, return(0));
  r = (j \ half) * 2^(c[1] - 1) + i;
  admits(y \ 16, parity(bitand(r, c[2]))) && admits(y % 16, parity(bitand(r, c[3])));
}

\\ rows and columns count from 1 here
stepmatrix(c, y) = my(d = 2^(c[1] - 1)); matrix(d, d, i, j, Mod(entry(c, y, i - 1, j - 1), 2^32));

\\ the counts after the plan
followed(c, start, symbols, plan) =
{
  my(v = Mod(start, 2^32), pile = List(), taken = 0, later);
  foreach(plan, letter,
    if(letter == "s",
      taken++;
      listput(pile, stepmatrix(c, symbols[taken])),
    letter == "j",
      later = pile[#pile];
      listpop(pile);
      listput(pile, pile[#pile] * later, #pile),
    letter == "a" && #pile == 1,
      v = v * pile[1];
      listpop(pile),
    error("not a plan")));
  if(taken != #symbols || #pile != 0, error("not a plan for these symbols"));
  lift(v);
}

numbers(text) = if(text == "-", [], apply(eval, strsplit(text, ",")));

letters(text) = if(text == "-", [], [Strchr(k) | k <- Vecsmall(text)]);

answer(line) =
{
  my(f = strsplit(line, " "), c = code(f[2]), d = 2^(c[1] - 1), value);
  if(f[1] == "count",
    return(followed(c, numbers(f[3]), numbers(f[4]), letters(f[5]))[eval(f[6]) + 1]));
  value = followed(c, vector(d, k, k == 1), numbers(f[3]), letters(f[4]))[eval(f[5]) + 1];
  if(value == 0, "absent", value);
}

foreach(readstr(getenv("COUNT_LINES")), line, if(Vecsmall(line)[1] != 35, print(answer(line))));
