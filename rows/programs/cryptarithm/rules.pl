% TO + GO = OUT
solve(T, O, G, U) :- digits(Ds), select(T, Ds, A), T > 0, select(O, A, B), O > 0, select(G, B, C), G > 0, select(U, C, _), 10 * T + O + 10 * G + O =:= 100 * O + 10 * U + T.
digits([0, 1, 2, 3, 4, 5, 6, 7, 8, 9]).
select(X, [X|L], L).
select(X, [Y|L], [Y|M]) :- select(X, L, M).
