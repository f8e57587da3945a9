:- relation(parent/2, [1, 2]).
:- relation(male/1).
:- relation(female/1).
parent(pam, bob). parent(tom, bob). parent(tom, liz). parent(bob, ann). parent(bob, pat). parent(pat, jim).
female(pam). female(liz). female(ann). female(pat).
male(tom). male(bob). male(jim).
mother(X, Y) :- parent(X, Y), female(X).
grandparent(X, Z) :- parent(X, Y), parent(Y, Z).
sister(X, Y) :- parent(Z, X), parent(Z, Y), female(X), X \== Y.
ancestor(X, Y) :- parent(X, Y).
ancestor(X, Z) :- parent(X, Y), ancestor(Y, Z).
childless(X) :- ( male(X) ; female(X) ), \+ parent(X, _).
