% Predicates whose names are those of a control construct or built-in with another number of arguments, and odd names.
call(X, Y) :- X = Y.
throw(1, 2).
true(1).
is(1).
'hello world'(1).
[](1).
{}(1, 2).
'.'(x).
+(1, 2).
+(3, 4).
(-) :- true.
';'(1).
'\\+'(1, 2).
!(7).
member(X, [X|_]).
member(X, [_|L]) :- member(X, L).
