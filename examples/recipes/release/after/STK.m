ISSUE(I,N) ; gives out N pieces, if that many are left
 IF $GET(^STK(I))<N QUIT 0
 LOCK +^STK(I)
 SET ^STK(I)=$GET(^STK(I))-N
 LOCK -^STK(I) QUIT 1
LIST ; what is there
 NEW I SET I=""
 FOR  SET I=$ORDER(^STK(I)) QUIT:I=""  WRITE !,I
 QUIT
NOTE(TEXT) ; a line for the log
 LOCK +^LOG SET ^LOG($ORDER(^LOG(""),-1)+1)=TEXT LOCK -^LOG QUIT
