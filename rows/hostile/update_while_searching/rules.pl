% Changes of what is being searched.
:- relation(p/1).
:- clauses(c/1).
p(1). p(2). p(3).
c(1). c(2). c(3).
grow :- p(X), Y is X * 10, insert_tuple(p(Y)), fail.
grow.
shrink :- p(X), p(Y), delete_tuple(p(Y)), fail.
shrink.
self :- c(X), retract(c(X)), assertz(c(X)), fail.
self.
double :- retract(c(X)), assertz(c(X)), assertz(c(X)), fail.
double.
drop :- retract(c(X)), retract(c(_)), fail.
drop.
