WSORD ; orders
 ; ^WORD(o,0)=customer^plate^state^day ^WORD(o,"work",n)=kind^hours ^WORD(o,"part",p)=n
 ; ^WDAY(day,o)="" what is done on a day
 QUIT
NEW(C,PLATE,DAY) ; a new order: its number, or ""
 NEW O
 IF '$$OPEN^WSCFG(DAY) QUIT ""
 LOCK +^WCUS(C):5 ELSE  QUIT ""
 IF '$DATA(^WCUS(C,"car",PLATE)) LOCK -^WCUS(C) QUIT ""
 SET O=$$NEXT^WSNUM("ORD")
 LOCK +^WORD(O)
 SET ^WORD(O,0)=C_"^"_PLATE_"^open^"_DAY
 DO PLAN(O,DAY)
 LOCK -^WORD(O)
 LOCK -^WCUS(C)
 DO LOG^WSLOG("ORD","order "_O)
 QUIT O
 ;
PLAN(O,DAY) ; onto a day
 LOCK +^WDAY(DAY)
 SET ^WDAY(DAY,O)=""
 LOCK -^WDAY(DAY)
 QUIT
 ;
UNPLAN(O,DAY) ; off a day
 LOCK +^WDAY(DAY)
 KILL ^WDAY(DAY,O)
 LOCK -^WDAY(DAY)
 QUIT
 ;
MOVE(O,TO) ; to another day
 NEW DAY
 IF '$$OPEN^WSCFG(TO) QUIT 0
 LOCK +^WORD(O):5 ELSE  QUIT 0
 SET DAY=$PIECE($GET(^WORD(O,0)),"^",4)
 IF DAY="" LOCK -^WORD(O) QUIT 0
 SET $PIECE(^WORD(O,0),"^",4)=TO
 DO UNPLAN(O,DAY),PLAN(O,TO)
 LOCK -^WORD(O)
 QUIT 1
 ;
WORK(O,KIND,HOURS) ; work is done
 NEW N
 LOCK +^WORD(O):5 ELSE  QUIT 0
 SET N=$ORDER(^WORD(O,"work",""),-1)+1
 SET ^WORD(O,"work",N)=KIND_"^"_HOURS
 LOCK -^WORD(O)
 QUIT 1
 ;
PART(O,P,N) ; parts for an order
 LOCK +^WORD(O):5 ELSE  QUIT 0
 IF '$$RESERVE^WSPRT(P,O,N) LOCK -^WORD(O) QUIT 0
 SET ^WORD(O,"part",P)=$GET(^WORD(O,"part",P))+N
 LOCK -^WORD(O)
 QUIT 1
 ;
SUM(O) ; what an order costs; locked by the caller
 NEW S,N,P
 SET S=0,N="",P=""
 FOR  SET N=$ORDER(^WORD(O,"work",N)) QUIT:N=""  SET S=S+($PIECE(^WORD(O,"work",N),"^",2)*$$RATE^WSCFG($PIECE(^WORD(O,"work",N),"^")))
 FOR  SET P=$ORDER(^WORD(O,"part",P)) QUIT:P=""  SET S=S+($$USE^WSPRT(P,O)*$$PRICE^WSPRT(P))
 QUIT S
 ;
CLOSE(O) ; the car is done: what it costs, or ""
 NEW R,S
 LOCK +^WORD(O):30
 IF '$TEST QUIT ""
 SET R=$GET(^WORD(O,0))
 IF $PIECE(R,"^",3)'="open" LOCK -^WORD(O) QUIT ""
 SET S=$$SUM(O)
 SET $PIECE(^WORD(O,0),"^",3)="done"
 DO UNPLAN(O,$PIECE(R,"^",4))
 LOCK -^WORD(O)
 JOB MAKE^WSINV(O,$PIECE(R,"^"),S)
 DO LOG^WSLOG("ORD","done "_O)
 QUIT S
 ;
DAY(DAY) ; prints the orders of a day
 NEW O
 LOCK +^WDAY(DAY):5 ELSE  WRITE !,"in use" QUIT
 SET O=""
 FOR  SET O=$ORDER(^WDAY(DAY,O)) QUIT:O=""  WRITE !,O
 LOCK -^WDAY(DAY)
 QUIT
 ;
SHOW(O) ; an order on the screen
 NEW N
 LOCK +^WORD(O):5 ELSE  WRITE !,"in use" QUIT
 WRITE !,$GET(^WORD(O,0))
 SET N=""
 FOR  SET N=$ORDER(^WORD(O,"work",N)) QUIT:N=""  WRITE !,?5,^WORD(O,"work",N)
 LOCK -^WORD(O)
 QUIT
