WSINV ; invoices and payments
 ; ^WINV(c,i)=sum^day^order: by customers, under their lock. ^WSUM=all that is owed, under a lock of its own
 QUIT
MAKE(O,C,SUM) ; a job of its own: the invoice of an order
 NEW I,ALL
 LOCK +^WCUS(C):60 ELSE  DO LOG^WSLOG("INV","no invoice for "_O) QUIT
 SET I=$$NEXT^WSNUM("INV")
 SET ALL=SUM*(100+$$TAX^WSCFG)/100
 SET ^WINV(C,I)=ALL_"^"_+$HOROLOG_"^"_O
 DO OWE^WSCUS(C,ALL),TOTAL(ALL)
 LOCK -^WCUS(C)
 DO PUT^WSQUE("PRINT",C_"/"_I)
 QUIT
 ;
TOTAL(N) ; all that is owed changes
 LOCK +^WSUM
 SET ^WSUM=$GET(^WSUM)+N
 LOCK -^WSUM
 QUIT
 ;
PAY(C,I,SUM) ; a payment: what is left of the invoice, or ""
 NEW R
 LOCK +^WCUS(C):5 ELSE  QUIT ""
 SET R=$GET(^WINV(C,I))
 IF R="" LOCK -^WCUS(C) QUIT ""
 SET $PIECE(^WINV(C,I),"^")=R-SUM
 DO OWE^WSCUS(C,-SUM),TOTAL(-SUM)
 LOCK -^WCUS(C)
 DO LOG^WSLOG("INV","payment for "_I)
 QUIT R-SUM
 ;
PRINT(X) ; one invoice on the printer
 NEW C,I,R
 SET C=$PIECE(X,"/"),I=$PIECE(X,"/",2)
 LOCK +^WCUS(C)
 SET R=$GET(^WINV(C,I))
 LOCK -^WCUS(C)
 WRITE !,"invoice ",I,": ",$PIECE(R,"^")
 QUIT
 ;
OPEN(C) ; the open invoices of a customer
 NEW I
 LOCK +^WCUS(C):5 ELSE  WRITE !,"in use" QUIT
 SET I=""
 FOR  SET I=$ORDER(^WINV(C,I)) QUIT:I=""  WRITE:^WINV(C,I)>0 !,I,?10,^WINV(C,I)
 LOCK -^WCUS(C)
 QUIT
 ;
MERGE(FROM,TO) ; two entries for one customer
 IF FROM=TO QUIT 0
 LOCK +(^WCUS(FROM),^WCUS(TO)):10 ELSE  QUIT 0
 MERGE ^WINV(TO)=^WINV(FROM),^WCUS(TO,"car")=^WCUS(FROM,"car")
 DO OWE^WSCUS(TO,$$DUE^WSCUS(FROM))
 KILL ^WINV(FROM),^WCUS(FROM)
 LOCK -(^WCUS(FROM),^WCUS(TO))
 QUIT 1
 ;
SUMS ; all that is owed
 LOCK +^WSUM
 WRITE !,$GET(^WSUM)
 LOCK -^WSUM
 QUIT
