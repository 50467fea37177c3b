LOW(MIN) ; lists the items that run short, without a lock: one of them may be gone by then, or filled up
 NEW I SET I=""
 FOR  SET I=$ORDER(^STK(I)) QUIT:I=""  WRITE:$GET(^STK(I))<MIN !,I
 QUIT
FILL(MIN) ; looks for what runs short without a lock, and looks again under it
 NEW I SET I=""
 FOR  SET I=$ORDER(^STK(I)) QUIT:I=""  DO:$GET(^STK(I))<MIN ONE(I,MIN)
 QUIT
ONE(I,MIN) LOCK +^STK(I) SET:$GET(^STK(I),MIN)<MIN ^STK(I)=MIN LOCK -^STK(I) QUIT
