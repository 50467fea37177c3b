WSPRT ; parts in stock
 ; ^WPRT(part,0)=name^price ^WPRT(part,"qty")=n ^WPRT(part,"res",order)=n
 QUIT
TAKE(P) ; claims a part: $TEST is 1 where it was had
 LOCK +^WPRT(P):5
 QUIT
 ;
GIVE(P) ; releases it
 LOCK -^WPRT(P)
 QUIT
 ;
ADD(P,N) ; goods come in
 DO TAKE(P) ELSE  QUIT 0
 SET ^WPRT(P,"qty")=$GET(^WPRT(P,"qty"))+N
 DO GIVE(P)
 DO LOG^WSLOG("PRT","in "_P_" "_N)
 QUIT 1
 ;
NEW(P,NAME,PRICE) ; a new kind of part
 LOCK +^WPRT(P):5
 IF '$TEST QUIT 0
 SET ^WPRT(P,0)=NAME_"^"_PRICE,^WPRT(P,"qty")=0
 LOCK -^WPRT(P)
 QUIT 1
 ;
RESERVE(P,O,N) ; reserves parts for an order: 1, or 0 where there are too few
 NEW FREE
 LOCK +^WPRT(P):10
 IF '$TEST QUIT 0
 SET FREE=$GET(^WPRT(P,"qty"))-$$SUM(P)
 IF FREE<N LOCK -^WPRT(P) DO ASK(P,N) QUIT 0
 SET ^WPRT(P,"res",O)=$GET(^WPRT(P,"res",O))+N
 LOCK -^WPRT(P)
 QUIT 1
 ;
SUM(P) ; how many are reserved; locked by the caller
 NEW O,N
 SET N=0,O=""
 FOR  SET O=$ORDER(^WPRT(P,"res",O)) QUIT:O=""  SET N=N+^WPRT(P,"res",O)
 QUIT N
 ;
USE(P,O) ; what is reserved is used: how many
 NEW N
 LOCK +^WPRT(P)
 SET N=+$GET(^WPRT(P,"res",O))
 SET ^WPRT(P,"qty")=$GET(^WPRT(P,"qty"))-N
 KILL ^WPRT(P,"res",O)
 LOCK -^WPRT(P)
 QUIT N
 ;
PRICE(P) ; the price of a part
 NEW R
 LOCK +^WPRT(P)
 SET R=$PIECE($GET(^WPRT(P,0)),"^",2)
 LOCK -^WPRT(P)
 QUIT R
 ;
ASK(P,N) ; asks for more parts
 DO PUT^WSQUE("BUY",P_"/"_N)
 QUIT
 ;
LIST ; all parts, into a list of the job's own
 NEW P
 KILL ^WTMP($JOB,"parts")
 SET P=""
 FOR  LOCK +^WPRT SET P=$ORDER(^WPRT(P)) LOCK -^WPRT QUIT:P=""  DO
 . LOCK +^WPRT(P):2 ELSE  SET ^WTMP($JOB,"parts",P)="busy" QUIT
 . SET ^WTMP($JOB,"parts",P)=$GET(^WPRT(P,"qty"))
 . LOCK -^WPRT(P)
 SET P=""
 FOR  SET P=$ORDER(^WTMP($JOB,"parts",P)) QUIT:P=""  WRITE !,P,?20,^WTMP($JOB,"parts",P)
 KILL ^WTMP($JOB,"parts")
 QUIT
