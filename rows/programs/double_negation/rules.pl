% What \+ and findall/3 leave of variables.
p(1). p(2).
consistent(X, Y) :- \+ \+ ( X = 1, Y = 2 ).
variant(X, Y) :- \+ \+ ( copy_term(X, A), copy_term(Y, B), number(A, 0, N), number(B, 0, N), A == B ).
number(X, I, J) :- var(X), !, X = '$VAR'(I), J is I + 1.
number(X, I, J) :- compound(X), !, X =.. [_|L], numbers(L, I, J).
number(_, I, I).
numbers([], I, I).
numbers([X|L], I, K) :- number(X, I, J), numbers(L, J, K).
