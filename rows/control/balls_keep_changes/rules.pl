% Changes of a session are not undone by a ball, nor on backtracking; a session that fails loses them all.
:- relation(p/1).
:- clauses(c/1).
p(1).
c(1).
