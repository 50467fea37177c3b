WSMEC ; mechanics and their hours
 ; ^WMEC(m,0)=name ^WMEC(m,day)=hours that are taken. Their locks are in a table: ^WLOCK("MEC",m)
 QUIT
HIRE(NAME) ; a new mechanic: the number
 NEW M
 SET M=$$NEXT^WSNUM("MEC")
 LOCK +^WLOCK("MEC",M)
 SET ^WMEC(M,0)=NAME
 LOCK -^WLOCK("MEC",M)
 QUIT M
 ;
TAKE(M,DAY,HOURS) ; takes hours of a day: 1, or 0 where they are too many
 NEW H
 LOCK +^WLOCK("MEC",M):5 ELSE  QUIT 0
 SET H=$GET(^WMEC(M,DAY))
 IF H+HOURS>8 LOCK -^WLOCK("MEC",M) QUIT 0
 SET ^WMEC(M,DAY)=H+HOURS
 LOCK -^WLOCK("MEC",M)
 QUIT 1
 ;
FREE(M,DAY) ; the hours that are left
 NEW H
 LOCK +^WLOCK("MEC",M):5 ELSE  QUIT 0
 SET H=8-$GET(^WMEC(M,DAY))
 LOCK -^WLOCK("MEC",M)
 QUIT H
 ;
CLEAN(M,DAY) ; days that are past
 NEW D
 LOCK +^WLOCK("MEC",M)
 SET D=0
 FOR  SET D=$ORDER(^WMEC(M,D)) QUIT:D=""!(D'<DAY)  KILL ^WMEC(M,D)
 LOCK -^WLOCK("MEC",M)
 QUIT
 ;
BAY(B,O) ; an order into a bay: ^WBAY(b)=order, under the table's lock of bays
 LOCK +^WLOCK("BAY",B):5 ELSE  QUIT 0
 IF $GET(^WBAY(B))'="" LOCK -^WLOCK("BAY",B) QUIT 0
 SET ^WBAY(B)=O
 LOCK -^WLOCK("BAY",B)
 QUIT 1
 ;
LEAVE(B) ; the bay is free
 LOCK +^WLOCK("BAY",B)
 SET ^WBAY(B)=""
 LOCK -^WLOCK("BAY",B)
 QUIT
