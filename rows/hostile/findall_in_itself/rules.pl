% Searches in searches, to the end of the budget.
p :- findall(x, p, _).
q :- findall(X, ( r(X), q ), _).
r(1).
r(2).
