:- relation(p/1). loop :- loop.
