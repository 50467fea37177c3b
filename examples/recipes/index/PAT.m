NEW(ID,NAME) ; a new patient: the record, then its place in the index of names
 LOCK +^PAT(ID)
 SET ^PAT(ID,"name")=NAME
 DO PUT(NAME,ID)
 LOCK -^PAT(ID) QUIT
RENAME(ID,NAME) ; the record and the index change together, under the patient's lock
 NEW OLD
 LOCK +^PAT(ID):5 ELSE  QUIT 0
 SET OLD=$GET(^PAT(ID,"name")) IF OLD="" LOCK -^PAT(ID) QUIT 0
 SET ^PAT(ID,"name")=NAME
 DO TAKE(OLD,ID),PUT(NAME,ID)
 LOCK -^PAT(ID) QUIT 1
FIND(NAME) ; the first patient with this name, or nothing
 NEW ID
 LOCK +^PATX SET ID=$ORDER(^PATX(NAME,"")) LOCK -^PATX
 QUIT ID
PUT(NAME,ID) LOCK +^PATX SET ^PATX(NAME,ID)="" LOCK -^PATX QUIT
TAKE(NAME,ID) LOCK +^PATX KILL ^PATX(NAME,ID) LOCK -^PATX QUIT
