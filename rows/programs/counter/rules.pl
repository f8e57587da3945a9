:- clauses(counter/1).
counter(0).
next(N) :- retract(counter(M)), !, N is M + 1, assertz(counter(N)).
reset :- retract(counter(_)), fail.
reset :- assertz(counter(0)).
times(0) :- !.
times(N) :- next(_), M is N - 1, times(M).
