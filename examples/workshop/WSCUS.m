WSCUS ; customers of the workshop
 ; ^WCUS(c,0)=name^phone ^WCUS(c,"car",plate)="" ^WCUS(c,"due")=sum
 ; ^WCUSX("N",name,c)="" index of names, ^WCUSX("P",plate)=c index of plates
 QUIT
NEW(NAME,PHONE) ; a new customer: its number
 NEW C
 SET C=$$NEXT^WSNUM("CUS")
 LOCK +^WCUS(C)
 SET ^WCUS(C,0)=NAME_"^"_PHONE
 SET ^WCUS(C,"due")=0
 DO INDEX(C,NAME)
 LOCK -^WCUS(C)
 DO LOG^WSLOG("CUS","new customer "_C)
 QUIT C
 ;
INDEX(C,NAME) ; into the index of names
 LOCK +^WCUSX
 SET ^WCUSX("N",NAME,C)=""
 LOCK -^WCUSX
 QUIT
 ;
RENAME(C,NAME) ; another name: 1, or 0 where the customer is in use or not there
 NEW OLD
 LOCK +^WCUS(C):5 ELSE  QUIT 0
 IF '$DATA(^WCUS(C,0)) LOCK -^WCUS(C) QUIT 0
 SET OLD=$PIECE(^WCUS(C,0),"^")
 SET $PIECE(^WCUS(C,0),"^")=NAME
 LOCK +^WCUSX
 KILL ^WCUSX("N",OLD,C)
 SET ^WCUSX("N",NAME,C)=""
 LOCK -^WCUSX
 LOCK -^WCUS(C)
 DO LOG^WSLOG("CUS",C_" is called "_NAME)
 QUIT 1
 ;
ADDCAR(C,PLATE) ; a car of a customer: 1, or 0 where another has it
 NEW OTHER
 LOCK +^WCUS(C):5 ELSE  QUIT 0
 LOCK +^WCUSX
 SET OTHER=$GET(^WCUSX("P",PLATE))
 IF OTHER'="",OTHER'=C LOCK -^WCUSX,-^WCUS(C) QUIT 0
 SET ^WCUSX("P",PLATE)=C
 LOCK -^WCUSX
 SET ^WCUS(C,"car",PLATE)=""
 LOCK -^WCUS(C)
 QUIT 1
 ;
DROPCAR(C,PLATE) ; the car is sold
 LOCK +^WCUS(C):5 ELSE  QUIT 0
 KILL ^WCUS(C,"car",PLATE)
 LOCK +^WCUSX KILL ^WCUSX("P",PLATE) LOCK -^WCUSX
 LOCK -^WCUS(C)
 QUIT 1
 ;
OWNER(PLATE) ; whose car it is, or ""
 NEW C
 LOCK +^WCUSX
 SET C=$GET(^WCUSX("P",PLATE))
 LOCK -^WCUSX
 QUIT C
 ;
FIND(PART) ; prints those whose names begin so
 NEW N,C
 LOCK +^WCUSX:10 ELSE  WRITE !,"index is in use" QUIT
 SET N=PART
 FOR  SET N=$ORDER(^WCUSX("N",N)) QUIT:$EXTRACT(N,1,$LENGTH(PART))'=PART  DO
 . SET C=""
 . FOR  SET C=$ORDER(^WCUSX("N",N,C)) QUIT:C=""  WRITE !,C,?10,N
 LOCK -^WCUSX
 QUIT
 ;
OWE(C,SUM) ; the customer owes more; locked by the caller
 SET ^WCUS(C,"due")=$GET(^WCUS(C,"due"))+SUM
 QUIT
 ;
DUE(C) ; what is owed; locked by the caller
 QUIT +$GET(^WCUS(C,"due"))
 ;
SHOW(C) ; a customer on the screen
 NEW P
 LOCK +^WCUS(C):5 ELSE  WRITE !,"in use" QUIT
 WRITE !,$PIECE($GET(^WCUS(C,0)),"^"),?40,$$DUE(C)
 SET P=""
 FOR  SET P=$ORDER(^WCUS(C,"car",P)) QUIT:P=""  WRITE !,?5,P
 LOCK -^WCUS(C)
 QUIT
