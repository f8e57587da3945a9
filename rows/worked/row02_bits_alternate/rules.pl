:- relation(q/2). q(0,2). q(1,0).
