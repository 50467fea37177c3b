LOW(MIN) ; lists the items that run short: one at a time, with all of ^STK locked only while the next is looked for
 NEW I SET I=""
 FOR  LOCK +^STK SET I=$ORDER(^STK(I)) LOCK -^STK QUIT:I=""  DO ONE(I,MIN)
 QUIT
ONE(I,MIN) LOCK +^STK(I) WRITE:$GET(^STK(I))<MIN !,I LOCK -^STK(I) QUIT
COUNT() ; how many items there are: all of ^STK stays locked, so nothing changes meanwhile
 NEW I,N SET I="",N=0
 LOCK +^STK
 FOR  SET I=$ORDER(^STK(I)) QUIT:I=""  SET N=N+1
 LOCK -^STK QUIT N
