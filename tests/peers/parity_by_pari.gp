\\ The generator and parity symbols of 1000BASE-T1 frames by PARI/GP (Debian's pari-gp), for tests/peers/generator. That
\\ gives gp this file and then lines such as show(generator, 45), and reads for each a line of symbols: numbers below
\\ 512, highest power first.

\\ alpha is a root of x^9 + x^4 + 1, and alpha = 2: a symbol's bits are its coefficients in powers of alpha.
alpha = ffgen((x^9 + x^4 + 1) * Mod(1, 2), 'a);
element(symbol) = subst(Pol(binary(symbol)), 'x, alpha) * alpha^0;
symbol_of(element) = if(element == 0, 0, subst(element.pol, 'a, 2));

generator = prod(power = 0, 43, 'Z - alpha^power);
scaled(symbol) = element(symbol) * generator;

\\ The first data symbol stands highest: D(Z) is D405 Z^449 + .. + D0 Z^44.
parity(data) = (Pol(apply(element, data), 'Z) * 'Z^44) % generator;

show(polynomial, number) = print(vector(number, place, symbol_of(polcoef(polynomial, number - place, 'Z))));
