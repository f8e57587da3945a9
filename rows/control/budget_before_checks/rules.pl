% Each goal uses its inference before its checks: with none left, that is what is raised.
:- relation(r/1).
:- clauses(c/1).
p(1).
