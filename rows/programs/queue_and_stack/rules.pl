:- clauses(waiting/1).
:- clauses(pile/1).
enqueue(X) :- assertz(waiting(X)).
dequeue(X) :- retract(waiting(X)), !.
push(X) :- asserta(pile(X)).
pop(X) :- retract(pile(X)), !.
all(Q, P) :- findall(X, waiting(X), Q), findall(X, pile(X), P).
