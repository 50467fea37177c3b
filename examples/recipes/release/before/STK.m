ISSUE(I,N) ; gives out N pieces
 LOCK +^STK(I)
 SET ^STK(I)=$GET(^STK(I))-N
 LOCK -^STK(I) QUIT
LIST ; what is there
 NEW I SET I=""
 FOR  SET I=$ORDER(^STK(I)) QUIT:I=""  WRITE !,I
 QUIT
NOTE(TEXT) ; a line for the log
 SET ^LOG($ORDER(^LOG(""),-1)+1)=TEXT QUIT
