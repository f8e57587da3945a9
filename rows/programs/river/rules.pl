% A farmer, a wolf, a goat and a cabbage.
path(P) :- go(s(w, w, w, w), s(e, e, e, e), [s(w, w, w, w)], P).
go(S, S, P, P).
go(S, G, Seen, P) :- move(S, T), \+ unsafe(T), \+ member(T, Seen), go(T, G, [T|Seen], P).
move(s(X, X, G, C), s(Y, Y, G, C)) :- opposite(X, Y).
move(s(X, W, X, C), s(Y, W, Y, C)) :- opposite(X, Y).
move(s(X, W, G, X), s(Y, W, G, Y)) :- opposite(X, Y).
move(s(X, W, G, C), s(Y, W, G, C)) :- opposite(X, Y).
unsafe(s(X, Y, Y, _)) :- opposite(X, Y).
unsafe(s(X, _, Y, Y)) :- opposite(X, Y).
opposite(e, w).
opposite(w, e).
member(X, [X|_]).
member(X, [_|L]) :- member(X, L).
