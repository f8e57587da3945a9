transpose([[]|_], []) :- !.
transpose(M, [H|T]) :- heads(M, H, R), transpose(R, T).
heads([], [], []).
heads([[X|Xs]|L], [X|H], [Xs|R]) :- heads(L, H, R).
dot([], [], 0).
dot([X|Xs], [Y|Ys], S) :- dot(Xs, Ys, T), S is X * Y + T.
product(A, B, C) :- transpose(B, T), lines(A, T, C).
lines([], _, []).
lines([R|Rs], T, [L|Ls]) :- line(R, T, L), lines(Rs, T, Ls).
line(_, [], []).
line(R, [C|Cs], [X|Xs]) :- dot(R, C, X), line(R, Cs, Xs).
