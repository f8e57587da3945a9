% A meta-interpreter of stored clauses themselves: retract/1 gives a clause's body, and the clause is put back.
:- clauses(nat/1).
:- clauses(plus/3).
nat(z).
nat(s(X)) :- nat(X).
plus(z, X, X).
plus(s(X), Y, s(Z)) :- plus(X, Y, Z).
body(H, B) :- functor(H, F, N), functor(G, F, N), findall(G - C, retract((G :- C)), L), put_back(L), pick(H - B, L).
put_back([]).
put_back([H - B|L]) :- assertz((H :- B)), put_back(L).
pick(X, [X|_]).
pick(X, [_|L]) :- pick(X, L).
solve(true) :- !.
solve((A, B)) :- !, solve(A), solve(B).
solve(H) :- body(H, B), solve(B).
