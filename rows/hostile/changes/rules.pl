% 20,000 changes of a session, and none more.
:- relation(p/1).
:- clauses(c/1).
c(1).
toggle(0).
toggle(N) :- N > 0, insert_tuple(p(1)), delete_tuple(p(1)), M is N - 1, toggle(M).
