digits(N, B, Ds) :- digits(N, B, [], Ds).
digits(N, B, A, [N|A]) :- N < B, !.
digits(N, B, A, Ds) :- D is N mod B, M is N // B, digits(M, B, [D|A], Ds).
value(Ds, B, N) :- value(Ds, B, 0, N).
value([], _, N, N).
value([D|Ds], B, A, N) :- C is A * B + D, value(Ds, B, C, N).
roman(0, []) :- !.
roman(N, [R|L]) :- numeral(R, V), N >= V, !, M is N - V, roman(M, L).
numeral(m, 1000). numeral(cm, 900). numeral(d, 500). numeral(cd, 400). numeral(c, 100). numeral(xc, 90). numeral(l, 50).
numeral(xl, 40). numeral(x, 10). numeral(ix, 9). numeral(v, 5). numeral(iv, 4). numeral(i, 1).
