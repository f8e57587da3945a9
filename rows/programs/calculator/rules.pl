% Errors are taken and answered.
calculate(E, R) :- catch(( V is E, R = value(V) ), error(F, _), why(F, R)).
why(instantiation_error, unknown) :- !.
why(type_error(evaluable, N/A), no_such(N, A)) :- !.
why(evaluation_error(W), undefined(W)) :- !.
safe_divide(X, Y, Z) :- ( Y =:= 0 -> throw(division(X)) ; Z is X // Y ).
try(G, R) :- catch(( G, R = yes ), B, R = ball(B)).
try(_, no_more).
average(L, A) :- sum(L, S), count(L, N), safe_divide(S, N, A).
sum([], 0).
sum([X|L], S) :- sum(L, T), S is X + T.
count([], 0).
count([_|L], N) :- count(L, M), N is M + 1.
