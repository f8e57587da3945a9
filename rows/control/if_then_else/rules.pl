a(1). a(2). a(3).
cond_cut(X) :- ( a(X), ! -> true ; X = else ).
cond_cut(behind).
then_cut(X) :- ( a(1) -> a(X), ! ; X = else ).
then_cut(never).
else_cut(X) :- ( fail -> true ; a(X), ! ).
else_cut(never).
not_taken(X) :- ( fail -> ! ; a(X) ).
not_taken(behind).
alone(X) :- ( a(X) -> true ).
alone(behind).
alone_cut :- ( true -> ! ).
alone_cut :- throw(never).
nested(X, R) :- ( X < 2 -> R = small ; X < 3 -> R = middle ; R = large ).
sign(X, S) :- ( X > 0 -> S = 1 ; X =:= 0 -> S = 0 ; S = -1 ).
