% The rows of catch/3 and throw/1.
:- relation(p/1).
loop :- loop.
