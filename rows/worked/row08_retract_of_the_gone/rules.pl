:- clauses(r/1). r(1). r(2).
