WSQUE ; queues of what is to be done later
 ; ^WQUE(queue,n)=what
 QUIT
PUT(Q,WHAT) ; to the end
 NEW N
 LOCK +^WQUE(Q)
 SET N=$ORDER(^WQUE(Q,""),-1)+1
 SET ^WQUE(Q,N)=WHAT
 LOCK -^WQUE(Q)
 QUIT
 ;
GET(Q) ; the first, or ""
 NEW N,X
 SET X=""
 LOCK +^WQUE(Q):3 ELSE  QUIT ""
 SET N=$ORDER(^WQUE(Q,""))
 IF N'="" SET X=^WQUE(Q,N) KILL ^WQUE(Q,N)
 LOCK -^WQUE(Q)
 QUIT X
 ;
START ; begins the workers
 JOB RUN("BUY"),RUN("PRINT")
 QUIT
 ;
RUN(Q) ; a worker: one for each queue
 NEW X,STOP
 LOCK +^WRUN(Q):0 ELSE  QUIT
 SET ^WRUN(Q)=$JOB
 SET STOP=0
 FOR  DO  QUIT:STOP
 . SET X=$$GET(Q)
 . IF X="" SET STOP=1 QUIT
 . IF Q="BUY" DO BUY(X) QUIT
 . IF Q="PRINT" DO PRINT^WSINV(X) QUIT
 KILL ^WRUN(Q)
 LOCK -^WRUN(Q)
 QUIT
 ;
BUY(X) ; a letter to the dealer
 DO LOG^WSLOG("BUY",X)
 QUIT
