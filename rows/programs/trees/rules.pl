insert(X, nil, t(nil, X, nil)).
insert(X, t(L, Y, R), t(M, Y, R)) :- X @< Y, !, insert(X, L, M).
insert(X, t(L, Y, R), t(L, Y, S)) :- X @> Y, !, insert(X, R, S).
insert(_, T, T).
build([], T, T).
build([X|L], T, U) :- insert(X, T, S), build(L, S, U).
inorder(nil, []).
inorder(t(L, X, R), Xs) :- inorder(L, A), inorder(R, B), append(A, [X|B], Xs).
depth(nil, 0).
depth(t(L, _, R), D) :- depth(L, A), depth(R, B), ( A > B -> D is A + 1 ; D is B + 1 ).
mirror(nil, nil).
mirror(t(L, X, R), t(S, X, M)) :- mirror(L, M), mirror(R, S).
in(X, t(_, X, _)).
in(X, t(L, _, R)) :- in(X, L) ; in(X, R).
append([], L, L).
append([X|L], M, [X|N]) :- append(L, M, N).
