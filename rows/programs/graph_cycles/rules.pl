:- relation(edge/2, [1, 2]).
edge(1, 2). edge(2, 3). edge(3, 1). edge(3, 4). edge(5, 5).
cycle(X, [X|P]) :- edge(X, Y), back(Y, X, [], P).
back(X, X, _, []).
back(Y, X, Seen, [Y|P]) :- Y =\= X, \+ member(Y, Seen), edge(Y, Z), back(Z, X, [Y|Seen], P).
acyclic :- \+ cycle(_, _).
member(X, [X|_]).
member(X, [_|L]) :- member(X, L).
