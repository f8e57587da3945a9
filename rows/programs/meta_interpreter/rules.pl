% The clauses that are interpreted are stored as clauses rule/2 with their heads and bodies as terms.
:- clauses(rule/2).
rule(app([], L, L), true).
rule(app([X|L], M, [X|N]), app(L, M, N)).
rule(nrev([], []), true).
rule(nrev([X|L], R), (nrev(L, M), app(M, [X], R))).
rule(grand(X, Z), (par(X, Y), par(Y, Z))).
rule(par(ann, bob), true).
rule(par(bob, cy), true).
rule(par(bob, dee), true).
solve(true) :- !.
solve((A, B)) :- !, solve(A), solve(B).
solve((A ; B)) :- !, ( solve(A) ; solve(B) ).
solve(\+ A) :- !, \+ solve(A).
solve(X = Y) :- !, X = Y.
solve(H) :- rule(H, B), solve(B).
proof(true, true) :- !.
proof((A, B), (P, Q)) :- !, proof(A, P), proof(B, Q).
proof(H, because(H, P)) :- rule(H, B), proof(B, P).
depth(true, _) :- !.
depth((A, B), D) :- !, depth(A, D), depth(B, D).
depth(H, D) :- D > 0, E is D - 1, rule(H, B), depth(B, E).
