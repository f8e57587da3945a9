simplify(E, F) :- step(E, G), !, simplify(G, F).
simplify(E, E).
step(E, G) :- rule(E, G).
step(E, G) :- compound(E), E =.. [F|As], one(As, Bs), G =.. [F|Bs].
one([A|As], [B|As]) :- step(A, B), !.
one([A|As], [A|Bs]) :- one(As, Bs).
rule(X + 0, X).
rule(0 + X, X).
rule(X * 1, X).
rule(1 * X, X).
rule(_ * 0, 0).
rule(0 * _, 0).
rule(X - Y, 0) :- X == Y.
rule(- - X, X).
rule(E, V) :- E =.. [F, A, B], integer(A), integer(B), member(F, [+, -, *]), V is E.
member(X, [X|_]).
member(X, [_|L]) :- member(X, L).
