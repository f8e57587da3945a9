% Types of lambda terms: the occurs check refuses the one that applies itself.
type(_, int(_), integer).
type(E, var(X), T) :- lookup(X, E, T).
type(E, lam(X, B), arrow(S, T)) :- type([X-S|E], B, T).
type(E, app(F, A), T) :- type(E, F, arrow(S, T)), type(E, A, S).
lookup(X, [Y-T|_], T) :- X == Y, !.
lookup(X, [_|E], T) :- lookup(X, E, T).
