WSNUM ; number circles
 ; ^WNUM(circle)=last number
 QUIT
NEXT(K) ; the next number of a circle
 NEW N
 LOCK +^WNUM(K)
 SET N=$GET(^WNUM(K))+1
 SET ^WNUM(K)=N
 LOCK -^WNUM(K)
 QUIT N
 ;
LAST(K) ; the last one given
 NEW N
 LOCK +^WNUM(K)
 SET N=$GET(^WNUM(K))
 LOCK -^WNUM(K)
 QUIT N
 ;
YEAR ; the circles of a new year
 NEW K
 FOR K="INV","ORD" DO
 . LOCK +^WNUM(K):20 ELSE  QUIT
 . SET ^WNUM(K)=0
 . LOCK -^WNUM(K)
 QUIT
