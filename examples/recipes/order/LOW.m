LOW(MIN) ; lists the items that run short
 NEW I SET I=""
 FOR  SET I=$ORDER(^STK(I)) QUIT:I=""  DO ONE(I,MIN)
 QUIT
ONE(I,MIN) LOCK +^STK(I) WRITE:$GET(^STK(I))<MIN !,I LOCK -^STK(I) QUIT
