:- relation(edge/2, [1]).
edge(a, b). edge(b, c). edge(c, d). edge(d, b). edge(e, f).
path(X, Y) :- path(X, Y, [X]).
path(X, Y, _) :- edge(X, Y).
path(X, Z, Seen) :- edge(X, Y), \+ member(Y, Seen), path(Y, Z, [Y|Seen]).
member(X, [X|_]).
member(X, [_|L]) :- member(X, L).
reachable(X, L) :- close([X], [], L).
close([], Seen, Seen).
close([X|Todo], Seen, L) :- member(X, Seen), !, close(Todo, Seen, L).
close([X|Todo], Seen, L) :- findall(Y, edge(X, Y), Ys), append(Todo, Ys, More), close(More, [X|Seen], L).
append([], L, L).
append([X|L], M, [X|N]) :- append(L, M, N).
