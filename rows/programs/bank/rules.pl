% Transfers: a session commits unless an account is overdrawn or money came or went.
:- relation(account/2, [1]).
account(ada, 100).
account(bob, 50).
account(cy, 0).
change(Who, By) :- account(Who, Old), New is Old + By, delete_tuple(account(Who, Old)), insert_tuple(account(Who, New)).
transfer(From, To, N) :- N > 0, M is - N, change(From, M), change(To, N).
total(T) :- findall(N, account(_, N), L), sum(L, T).
sum([], 0).
sum([N|L], S) :- sum(L, T), S is N + T.
broken :- account(_, N), N < 0.
broken :- total(T), T =\= 150.
