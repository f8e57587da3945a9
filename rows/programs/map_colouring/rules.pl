colour(red). colour(green). colour(blue).
adjacent(wa, nt). adjacent(wa, sa). adjacent(nt, sa). adjacent(nt, q). adjacent(sa, q). adjacent(sa, nsw). adjacent(sa, v). adjacent(q, nsw). adjacent(nsw, v).
colouring([], []).
colouring([R|Rs], [R-C|Cs]) :- colouring(Rs, Cs), colour(C), \+ clash(R, C, Cs).
clash(R, C, Cs) :- member(S-C, Cs), ( adjacent(R, S) ; adjacent(S, R) ).
member(X, [X|_]).
member(X, [_|L]) :- member(X, L).
