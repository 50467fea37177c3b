WSLOG ; log of what is done
 ; ^WLOG(n)=time^area^text, one lock for all
 QUIT
LOG(AREA,TEXT) ; one line more
 NEW N
 LOCK +^WLOG
 SET N=$ORDER(^WLOG(""),-1)+1
 SET ^WLOG(N)=$HOROLOG_"^"_AREA_"^"_TEXT
 LOCK -^WLOG
 QUIT
 ;
SHOW(FROM) ; prints the log from a number on
 NEW N
 LOCK +^WLOG:10 ELSE  WRITE !,"log is in use" QUIT
 SET N=FROM-1
 FOR  SET N=$ORDER(^WLOG(N)) QUIT:N=""  WRITE !,^WLOG(N)
 LOCK -^WLOG
 QUIT
 ;
CUT(KEEP) ; the oldest lines go
 NEW N,LAST
 LOCK +^WLOG
 SET LAST=$ORDER(^WLOG(""),-1),N=""
 FOR  SET N=$ORDER(^WLOG(N)) QUIT:N=""!(N>(LAST-KEEP))  KILL ^WLOG(N)
 LOCK -^WLOG
 QUIT
