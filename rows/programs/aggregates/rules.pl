:- relation(emp/4, [1]).
emp(1, ada, tools, 50). emp(2, bob, sales, 40). emp(3, cy, tools, 60). emp(4, dee, sales, 70). emp(5, eve, tools, 50).
sum([], 0).
sum([X|L], S) :- sum(L, T), S is X + T.
count([], 0).
count([_|L], N) :- count(L, M), N is M + 1.
total(D, T) :- findall(P, emp(_, _, D, P), L), sum(L, T).
average(D, A) :- findall(P, emp(_, _, D, P), L), sum(L, S), count(L, N), A is S // N.
richest(N) :- emp(_, N, _, P), \+ ( emp(_, _, _, Q), Q > P ).
raise(D, By) :- emp(I, N, D, P), Q is P + By, delete_tuple(emp(I, N, D, P)), insert_tuple(emp(I, N, D, Q)), fail.
raise(_, _).
