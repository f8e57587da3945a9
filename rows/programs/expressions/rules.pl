expression(E, S, R) :- term(T, S, M), more_terms(T, E, M, R).
more_terms(L, E, [+|S], R) :- !, term(T, S, M), more_terms(L + T, E, M, R).
more_terms(L, E, [-|S], R) :- !, term(T, S, M), more_terms(L - T, E, M, R).
more_terms(E, E, S, S).
term(E, S, R) :- factor(F, S, M), more_factors(F, E, M, R).
more_factors(L, E, [*|S], R) :- !, factor(F, S, M), more_factors(L * F, E, M, R).
more_factors(E, E, S, S).
factor(N, [N|S], S) :- integer(N).
factor(E, [open|S], R) :- expression(E, S, [close|R]).
parse(Tokens, E) :- expression(E, Tokens, []).
value(Tokens, V) :- parse(Tokens, E), V is E.
